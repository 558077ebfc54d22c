//! Folds the file given on the command line until a run changes nothing, into another file:
//! `steady FILE RESULT`.

use std::error::Error;
use std::process::ExitCode;
use std::{env, fs};

use wsf::Steady;

fn main() -> ExitCode {
    match run() {
        Ok(()) => ExitCode::SUCCESS,
        Err(error) => {
            eprintln!("{error}");
            ExitCode::FAILURE
        }
    }
}

fn run() -> Result<(), Box<dyn Error>> {
    let arguments: Vec<String> = env::args().skip(1).collect();
    let [path, result] = &arguments[..] else {
        return Err("usage: steady FILE RESULT".into());
    };
    let file = fs::read(path)?;
    let mut output = vec![0; wsf::room_for(&file)];
    let Steady { length, folds, runs } = wsf::fold_until_steady(&file, &mut output)?;
    fs::write(result, &output[..length])?;
    println!("{path}: {} bytes to {length}, {folds} folded in {runs} runs", file.len());
    Ok(())
}
