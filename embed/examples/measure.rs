//! Prints the length of the result that a fold of the file given on the command line has, the room
//! that the fold wants and its looks, and writes nothing: `measure FILE`.

use std::error::Error;
use std::process::ExitCode;
use std::{env, fs};

use wsf::Measured;

fn main() -> ExitCode {
    match run() {
        Ok(()) => ExitCode::SUCCESS,
        Err(error) => {
            eprintln!("{error}");
            ExitCode::FAILURE
        }
    }
}

fn run() -> Result<(), Box<dyn Error>> {
    let arguments: Vec<String> = env::args().skip(1).collect();
    let [path] = &arguments[..] else {
        return Err("usage: measure FILE".into());
    };
    let file = fs::read(path)?;
    let Measured { length, looks } = wsf::measure(&file)?;
    let room = wsf::room_for(&file);
    println!("{path}: {} bytes to {length} in a room of {room}, {looks} looks", file.len());
    Ok(())
}
