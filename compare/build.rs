//! Links the proved functions from the archive that `rt lib` writes in crate `comparison`.

fn main() {
    let folder = std::env::var("CARGO_MANIFEST_DIR").unwrap() + "/../crates/comparison/out";
    println!("cargo:rustc-link-search=native={folder}");
    println!("cargo:rustc-link-lib=static=comparison");
    println!("cargo:rerun-if-changed={folder}/libcomparison.a");
}
