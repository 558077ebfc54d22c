//! The static library beside the reference. `../README.md` lists the commands.

mod amount;
mod bench;
mod call;
mod calls;
mod compare;
mod families;
mod inputs;
mod stack;

use std::process::ExitCode;

use amount::{FULL, SHORT};
use reference::command_line::exit_code;

const USAGE: &str = "\
library compare [--short] [SEED]   compare the library with the reference, case by case
library bench                      times of both on the same files
library stack                      the stack that calls take, the most of each group
";

fn main() -> ExitCode {
    exit_code(run)
}

fn run(arguments: &[&str]) -> Result<(), String> {
    match *arguments {
        ["compare"] => families::compare_all(FULL),
        ["compare", "--short"] => families::compare_all(SHORT),
        ["compare", seed] => families::compare_all(FULL.seeded(seed)?),
        ["compare", "--short", seed] => families::compare_all(SHORT.seeded(seed)?),
        ["bench"] => {
            bench::bench_all();
            Ok(())
        }
        ["stack"] => {
            stack::print_all();
            Ok(())
        }
        _ => Err(USAGE.into()),
    }
}
