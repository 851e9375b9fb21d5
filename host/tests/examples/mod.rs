//! The scripts of the examples, by their names.

use std::fs;
use std::path::{Path, PathBuf};

fn folder() -> PathBuf {
    Path::new(env!("CARGO_MANIFEST_DIR")).join("../examples")
}

/// The text of an example.
pub fn example(name: &str) -> String {
    fs::read_to_string(folder().join(format!("{name}.lcc"))).expect("it is there")
}

/// The names of all examples. Not every test has a use for them.
#[allow(dead_code)]
pub fn names() -> Vec<String> {
    let files = fs::read_dir(folder()).expect("there are examples");
    let paths = files.map(|entry| entry.expect("it can be read").path());
    paths.map(|path| path.file_stem().expect("a name").to_string_lossy().into_owned()).collect()
}
