//! Where the library of a package is, libcodec.a of codec-tests and so on: the folder that DPR_STATICLIB names, else the
//! one that `bin/staticlib` writes it to.

fn main() {
    let home = std::env::var("CARGO_MANIFEST_DIR").unwrap();
    let package = std::env::var("CARGO_PKG_NAME").unwrap();
    let library = package.split('-').next().unwrap();
    let folder = std::env::var("DPR_STATICLIB").unwrap_or(format!("{home}/../../target/staticlib"));
    println!("cargo:rustc-link-search=native={folder}");
    println!("cargo:rerun-if-changed={folder}/lib{library}.a");
    println!("cargo:rerun-if-env-changed=DPR_STATICLIB");
}
