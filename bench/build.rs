//! Links the library that PSTP_LIBRARY names, and libsqlite3 where PSTP_SQLITE says so.
fn main() {
    let library = std::env::var("PSTP_LIBRARY").expect("PSTP_LIBRARY names the library");
    println!("cargo:rerun-if-env-changed=PSTP_LIBRARY");
    println!("cargo:rerun-if-changed={library}");
    println!("cargo:rustc-link-arg-bins={library}");
    println!("cargo:rerun-if-env-changed=PSTP_SQLITE");
    println!("cargo:rustc-check-cfg=cfg(sqlite)");
    if std::env::var("PSTP_SQLITE").is_ok_and(|is| is == "yes") {
        println!("cargo:rustc-cfg=sqlite");
    }
}
