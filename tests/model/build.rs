//! Finds the static library of the crate timing_c, which `bash tools/made timing_c` lays out in target/staticlib, for
//! tests/reads.rs alone.

fn main() {
    let package = std::env::var("CARGO_MANIFEST_DIR").expect("CARGO_MANIFEST_DIR, set by cargo");
    let directory = format!("{package}/../../target/staticlib");
    println!("cargo::rustc-link-search=native={directory}");
    println!("cargo::rerun-if-changed={directory}/libtiming_c.a");
}
