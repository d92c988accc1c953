//! Links the archive that `rt lib` writes in crate `yovtirak`.

fn main() {
    let folder = std::env::var("CARGO_MANIFEST_DIR").unwrap() + "/../crates/yovtirak/out";
    println!("cargo:rustc-link-search=native={folder}");
    println!("cargo:rustc-link-lib=static=yovtirak");
    println!("cargo:rerun-if-changed={folder}/libyovtirak.a");
}
