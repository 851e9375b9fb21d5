//! Links the static libraries that `rt lib` wrote, and takes the sizes of a table, a map and the longest text from c/card.h.

use std::{env, fs};

fn main() {
    let root = env::var("CARGO_MANIFEST_DIR").expect("cargo sets it");
    for library in ["script_api", "card_api"] {
        let libraries = format!("{root}/../../crates/{library}/out");
        println!("cargo:rustc-link-search={libraries}");
        println!("cargo:rustc-link-lib=static={library}");
        println!("cargo:rerun-if-changed={libraries}/lib{library}.a");
    }
    let header = format!("{root}/../../c/card.h");
    println!("cargo:rerun-if-changed={header}");
    let header = fs::read_to_string(header).expect("c/card.h");
    let sizes: String = ["CARD_WORDS", "MAP_WORDS", "GRID_TEXT_MAX"].iter().map(|name| constant(&header, name)).collect();
    let out = env::var("OUT_DIR").expect("cargo sets it");
    fs::write(format!("{out}/sizes.rs"), sizes).expect("a file in OUT_DIR");
}

/// The line in Rust for a `#define NAME number` of the header.
fn constant(header: &str, name: &str) -> String {
    let number = header.lines().find_map(|line| line.strip_prefix("#define ")?.strip_prefix(name)?.strip_prefix(' '));
    let number = number.unwrap_or_else(|| panic!("c/card.h has no #define of {name}"));
    format!("pub const {name}: usize = {number};\n")
}
