//! Folds the file given on the command line, in its place or into another file:
//! `fold FILE [RESULT]`.

use std::error::Error;
use std::process::ExitCode;
use std::{env, fs};

fn main() -> ExitCode {
    match run() {
        Ok(()) => ExitCode::SUCCESS,
        Err(error) => {
            eprintln!("{error}");
            ExitCode::FAILURE
        }
    }
}

fn run() -> Result<(), Box<dyn Error>> {
    let arguments: Vec<String> = env::args().skip(1).collect();
    let (path, result) = match &arguments[..] {
        [path] => (path, path),
        [path, result] => (path, result),
        _ => return Err("usage: fold FILE [RESULT]".into()),
    };
    let file = fs::read(path)?;
    let mut output = vec![0; wsf::room_for(&file)];
    let folded = wsf::fold(&file, &mut output)?;
    output.truncate(folded.length);
    fs::write(result, &output)?;
    println!("{path}: {} bytes to {}, {} folded", file.len(), output.len(), folded.folds);
    Ok(())
}
