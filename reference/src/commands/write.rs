//! Writes the scripts and the kept answers.

use std::fs;
use std::path::{Path, PathBuf};

use crate::answer_list::lists;
use crate::answers::entries;
use crate::generate::runs::repeats;
use crate::record::RecordFile;
use crate::scripts::{Script, scripts};

/// The name of the kept file of the repeat, which is the family's first.
pub const STEADY: &str = "steady";

/// The kept file of this name and that of its result.
pub fn paths_of(directory: &Path, name: &str) -> (PathBuf, PathBuf) {
    let path = |ending: &str| directory.join(format!("scripts/{name}{ending}.wsf"));
    (path(""), path("-result"))
}

/// The file of a script and that of its result.
pub fn script_paths(directory: &Path, script: &Script) -> (PathBuf, PathBuf) {
    paths_of(directory, &format!("{:02}", script.number))
}

pub fn write_all(directory: &Path) -> Result<(), String> {
    for script in scripts() {
        put_both(&script_paths(directory, &script), &script.file, &script.result)?;
    }
    let steady = &repeats()[0];
    put_both(&paths_of(directory, STEADY), &steady.file, &steady.result)?;
    for list in lists() {
        let bytes = entries(&list.cases);
        for path in list.paths {
            println!("{path}: {} answers, {} bytes", list.cases.len(), bytes.len());
            put(&directory.join(path), &bytes)?;
        }
    }
    Ok(())
}

fn put_both(
    paths: &(PathBuf, PathBuf),
    file: &RecordFile,
    result: &RecordFile,
) -> Result<(), String> {
    put(&paths.0, &file.to_bytes())?;
    put(&paths.1, &result.to_bytes())
}

fn put(path: &Path, bytes: &[u8]) -> Result<(), String> {
    fs::write(path, bytes).map_err(|error| format!("{}: {error}", path.display()))
}
