//! The files of `reference/scripts`.

use std::fs;
use std::path::PathBuf;

/// The file of this name.
pub fn kept(name: &str) -> Vec<u8> {
    let directory = PathBuf::from(env!("CARGO_MANIFEST_DIR")).join("../reference/scripts");
    fs::read(directory.join(format!("{name}.wsf"))).expect("the file is there")
}

/// The script of this number.
pub fn script(number: usize) -> Vec<u8> {
    kept(&format!("{number:02}"))
}
