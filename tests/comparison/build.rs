//! Links the proved libraries, which `tests/proved-library` writes.

fn main() {
    let package = std::env::var("CARGO_MANIFEST_DIR").expect("cargo gives the package's folder");
    let folder = format!("{package}/../../target/staticlib");
    println!("cargo::rustc-link-search=native={folder}");
    for library in ["govelamuth", "govelamuth_open"] {
        println!("cargo::rerun-if-changed={folder}/lib{library}.a");
        println!("cargo::rustc-link-lib=static={library}");
    }
}
