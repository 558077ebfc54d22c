//! The commands of the judge. `README.md` lists them.

use std::io::{self, BufWriter, Read, Write};
use std::path::Path;
use std::process::ExitCode;

use reference::command_line::exit_code;
use reference::commands::batch::{FAMILIES, batch};
use reference::commands::check::{FULL, SHORT, check_all};
use reference::commands::program::compare_program;
use reference::commands::write::write_all;
use reference::measure::measure;
use reference::steady::fold_until_steady;
use reference::{answers, fold, foldlist, origin};

fn main() -> ExitCode {
    exit_code(run)
}

fn run(arguments: &[&str]) -> Result<(), String> {
    match *arguments {
        ["check", directory] => no_difference(check_all(Path::new(directory), FULL)),
        ["check", "--short", directory] => no_difference(check_all(Path::new(directory), SHORT)),
        ["write", directory] => write_all(Path::new(directory)),
        ["origin", directory] => origin::compare(Path::new(directory)),
        ["foldlist"] => {
            print!("{}", foldlist::foldlist(&standard_input()?));
            Ok(())
        }
        ["compare-foldlist", program] => compare_program(Path::new(program)),
        ["fold", room] => fold_input(room),
        ["steady", room] => fold_input_until_steady(room),
        ["measure"] => measure_input(),
        ["replay"] => replay(&standard_input()?),
        ["batch", family, ref numbers @ ..] => run_batch(family, numbers),
        _ => Err(format!("{USAGE}{FAMILIES}")),
    }
}

const USAGE: &str = "\
reference check [--short] DIRECTORY   check everything; the directory is that of the reference
reference write DIRECTORY             write the scripts and the kept answers anew
reference origin CRATE                compare the carried functions with the unpacked crate
reference foldlist < FILE             print the lines of foldlist
reference compare-foldlist PROGRAM    run the program on files and compare its lines
reference fold ROOM < FILE > RESULT   fold one file
reference steady ROOM < FILE > RESULT fold one file until it is steady
reference measure < FILE              print the length of its result and the looks of its fold
reference replay < ANSWERS            compare answers with the fold's
reference batch FAMILY > ANSWERS      write the answers of a family of files, which is one of
";

fn no_difference(differences: usize) -> Result<(), String> {
    if differences > 0 {
        return Err(format!("{differences} parts differ"));
    }
    println!("nothing differs");
    Ok(())
}

fn standard_input() -> Result<Vec<u8>, String> {
    let mut input = Vec::new();
    io::stdin().read_to_end(&mut input).map_err(|error| error.to_string())?;
    Ok(input)
}

fn number<T: std::str::FromStr>(text: &str) -> Result<T, String> {
    text.parse().map_err(|_| format!("`{text}` is no number"))
}

/// The result goes to the output, the numbers to the error output.
fn fold_input(room: &str) -> Result<(), String> {
    let answer = fold::fold(&standard_input()?, number(room)?);
    eprintln!("returned {} folds {} looks {}", answer.number, answer.folds, answer.looks);
    io::stdout().write_all(&answer.result).map_err(|error| error.to_string())
}

fn fold_input_until_steady(room: &str) -> Result<(), String> {
    let steady = fold_until_steady(&standard_input()?, number(room)?);
    eprintln!("returned {} folds {} runs {}", steady.number, steady.folds, steady.runs);
    io::stdout().write_all(&steady.result).map_err(|error| error.to_string())
}

fn measure_input() -> Result<(), String> {
    let measured = measure(&standard_input()?);
    println!("returned {} length {} looks {}", measured.number, measured.length, measured.looks);
    Ok(())
}

/// Compares the answers in the input with the fold's.
fn replay(input: &[u8]) -> Result<(), String> {
    println!("replayed: {}", answers::replay(input)?.line());
    Ok(())
}

fn run_batch(family: &str, numbers: &[&str]) -> Result<(), String> {
    let numbers: Vec<u64> = numbers.iter().map(|text| number(text)).collect::<Result<_, _>>()?;
    let mut out = BufWriter::new(io::stdout().lock());
    batch(family, &numbers, &mut out)?;
    out.flush().map_err(|error| error.to_string())
}
