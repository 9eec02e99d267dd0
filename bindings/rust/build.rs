//! Links the static library that `crates/build` writes.
use std::path::Path;

fn main() {
    let folder = std::env::var("RIZHAVAAN_LIB_DIR").unwrap_or_else(|_| {
        let package = std::env::var("CARGO_MANIFEST_DIR").expect("cargo sets it");
        format!("{package}/../../target/staticlib")
    });
    let library = Path::new(&folder).join("librizhavaan.a");
    println!("cargo:rerun-if-env-changed=RIZHAVAAN_LIB_DIR");
    println!("cargo:rerun-if-changed={}", library.display());
    if !library.exists() {
        println!("cargo:warning={} is missing: `crates/build` writes it", library.display());
    }
    println!("cargo:rustc-link-search=native={folder}");
    println!("cargo:rustc-link-lib=static=rizhavaan");
}
