//! Finds the kernel's static library, which `bash tools/made embed_c` lays out in target/staticlib.

use std::path::Path;

fn main() {
    let package = std::env::var("CARGO_MANIFEST_DIR").expect("CARGO_MANIFEST_DIR, set by cargo");
    let directory = Path::new(&package).join("../../target/staticlib");
    let library = directory.join("libembed_c.a");
    println!("cargo::rerun-if-changed={}", library.display());
    assert!(
        library.exists(),
        "{} is missing: run `bash tools/made embed_c` at the root of the repository",
        library.display()
    );
    println!("cargo::rustc-link-search=native={}", directory.display());
}
