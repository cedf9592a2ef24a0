//! Finds the static library of the crate timing_c, which `bash tools/made timing_c` lays out in
//! target/staticlib.

fn main() {
    let root = std::env::var("CARGO_MANIFEST_DIR").expect("CARGO_MANIFEST_DIR, set by cargo");
    let dir = format!("{root}/../target/staticlib");
    println!("cargo::rustc-link-search=native={dir}");
    println!("cargo::rerun-if-changed={dir}/libtiming_c.a");
}
