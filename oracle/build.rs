// Links the library that `run` put beside this package.
fn main() {
    let here = std::env::var("CARGO_MANIFEST_DIR").expect("cargo names the package's folder");
    println!("cargo:rustc-link-search=native={here}/../library");
    println!("cargo:rerun-if-changed={here}/../library/libpstp.a");
}
