//! Links libpstp.a, from the directory PSTP_LIB_DIR or from where `tests/staticlib` puts it.

use std::env;
use std::path::PathBuf;

fn main() {
    println!("cargo:rerun-if-env-changed=PSTP_LIB_DIR");
    let dir = match env::var_os("PSTP_LIB_DIR") {
        Some(dir) => PathBuf::from(dir),
        None => PathBuf::from(env::var_os("CARGO_MANIFEST_DIR").expect("cargo sets it"))
            .join("../../target/staticlib"),
    };
    let library = dir.join("libpstp.a");
    assert!(
        library.is_file(),
        "{} is not there: run `tests/staticlib` in the repository, or set PSTP_LIB_DIR",
        library.display()
    );
    println!("cargo:rerun-if-changed={}", library.display());
    println!("cargo:rustc-link-search=native={}", dir.display());
    println!("cargo:rustc-link-lib=static=pstp");
}
