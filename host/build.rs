//! Links the static library that `rt lib` wrote in crates/card_api.

fn main() {
    let root = std::env::var("CARGO_MANIFEST_DIR").expect("cargo sets it");
    let library = format!("{root}/../crates/card_api/out");
    println!("cargo:rustc-link-search={library}");
    println!("cargo:rustc-link-lib=static=card_api");
    println!("cargo:rerun-if-changed={library}/libcard_api.a");
}
