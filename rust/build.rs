//! Links the proved calls, which `c/library` writes.
fn main() {
    let top = std::path::Path::new(env!("CARGO_MANIFEST_DIR"))
        .parent()
        .unwrap();
    let folder = top.join("target/staticlib");
    let library = folder.join("libexports.a");
    println!("cargo:rerun-if-changed={}", library.display());
    assert!(
        library.exists(),
        "{} is missing: run `c/library` at the top of the repository",
        library.display()
    );
    println!("cargo:rustc-link-search=native={}", folder.display());
    println!("cargo:rustc-link-lib=static=exports");
}
