//! Links the static library of the proved runner, which `rt lib` builds in crates/boundary.

fn main() {
    let out = concat!(env!("CARGO_MANIFEST_DIR"), "/../../crates/boundary/out");
    println!("cargo:rustc-link-search=native={out}");
    println!("cargo:rustc-link-lib=static=boundary");
    println!("cargo:rerun-if-changed={out}/libboundary.a");
}
