//! A command's work on its arguments, on a stack that the carried functions need.

use std::process::ExitCode;

/// The carried functions recurse, and a tree may be nearly 3,000 deep.
const STACK_BYTES: usize = 512 << 20;

/// Does the work on the arguments behind the program's name, and prints what went wrong.
pub fn exit_code(work: fn(&[&str]) -> Result<(), String>) -> ExitCode {
    let on_arguments = move || {
        let arguments: Vec<String> = std::env::args().skip(1).collect();
        let arguments: Vec<&str> = arguments.iter().map(String::as_str).collect();
        work(&arguments)
    };
    let thread = std::thread::Builder::new().stack_size(STACK_BYTES).spawn(on_arguments);
    let outcome = thread.expect("a thread starts").join().expect("the work doesn't panic");
    match outcome {
        Ok(()) => ExitCode::SUCCESS,
        Err(what) => {
            eprintln!("{what}");
            ExitCode::FAILURE
        }
    }
}
