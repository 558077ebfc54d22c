//! The program `foldlist`, run on files and held to the lines that the judge works out.

use std::io::{self, Write};
use std::ops::RangeInclusive;
use std::path::Path;
use std::process::{Command, Stdio};
use std::time::Instant;

use crate::foldlist::foldlist;
use crate::generate::case::Case;
use crate::generate::limits::limits;
use crate::generate::refusals::refusals;
use crate::generate::rules::{Rule, rules};
use crate::scripts::{Script, scripts};

/// The program reads so many bytes of its input.
const MOST_READ: usize = 65536;
/// The rows that can refuse an input. Row 11 can't: the program has room for every result.
const ROWS: RangeInclusive<u32> = 1..=10;
/// So many differences are printed.
const MOST_PRINTED: usize = 10;

/// An input of the program, and the lines that it must print.
struct Input {
    what: String,
    file: Vec<u8>,
    lines: String,
}

/// Prints what was compared. An error if anything differs.
pub fn compare_program(program: &Path) -> Result<(), String> {
    let start = Instant::now();
    let inputs: Vec<Input> = cases().into_iter().map(input).collect::<Result<_, _>>()?;
    let refused = refused_by_row(&inputs)?;
    wrong_lines_are_seen(&inputs)?;
    let differences = differences(&inputs, |input| run(program, &input.file));
    differences.iter().take(MOST_PRINTED).for_each(|what| println!("DIFFERENT: {what}"));
    let program = program.display();
    if !differences.is_empty() {
        return Err(format!("{program}: {} inputs differ", differences.len()));
    }
    let lines: usize = inputs.iter().map(|input| input.lines.lines().count()).sum();
    println!(
        "{program}: inputs {}, refused [{refused}], lines {lines}; differences 0 ({:.1?})",
        inputs.len(),
        start.elapsed()
    );
    Ok(())
}

fn cases() -> Vec<Case> {
    let of_script = |it: &Script| Case::of_records(format!("script {}", it.number), &it.file);
    let mut cases: Vec<Case> = scripts().iter().map(of_script).collect();
    cases.extend(refusals());
    cases.extend(limits());
    cases.extend(rules().iter().map(Rule::case));
    cases.push(Case::new("empty input", Vec::new()).expecting(1));
    cases.extend(long_inputs());
    cases
}

/// Inputs that are longer than any accepted file, up to more than the program reads.
fn long_inputs() -> Vec<Case> {
    let longest = limits().into_iter().find(|case| case.what == "the longest file");
    let longest = longest.expect("it is among the limits").file;
    let first = scripts()[0].file.to_bytes();
    let mut cases = Vec::new();
    let mut padded = |number: u32, what: &str, file: &[u8], length: usize| {
        let zeros = vec![0; length - file.len()];
        let file = [file, &zeros].concat();
        cases
            .push(Case::new(format!("{what}, zeros up to {length} bytes"), file).expecting(number));
    };
    for length in [longest.len() + 1, MOST_READ - 1, MOST_READ, MOST_READ + 1, 3 * MOST_READ] {
        padded(4, "the longest file", &longest, length);
        padded(4, "script 1", &first, length);
        padded(3, "script 1, last number 1", &changed(&first, 22), length);
        padded(2, "script 1, version 0", &changed(&first, 4), length);
        padded(1, "script 1, first letter", &changed(&first, 0), length);
    }
    cases.push(Case::new("the longest file twice", longest.repeat(2)).expecting(4));
    cases
}

/// The file with a bit of this byte changed.
fn changed(file: &[u8], at: usize) -> Vec<u8> {
    let mut file = file.to_vec();
    file[at] ^= 1;
    file
}

/// The judge's lines, which must have the number that was worked out by hand.
fn input(case: Case) -> Result<Input, String> {
    let Case { what, file, expected, .. } = case;
    let lines = foldlist(&file);
    let holds = match expected {
        Some(row) if ROWS.contains(&row) => lines == refusal_line(row),
        _ => lines.starts_with("fold "),
    };
    if holds { Ok(Input { what, file, lines }) } else { Err(format!("`{what}`: {lines}")) }
}

fn refusal_line(row: u32) -> String {
    format!("refused {row}\n")
}

/// How many inputs each row refuses. An error if one refuses none.
fn refused_by_row(inputs: &[Input]) -> Result<String, String> {
    let mut said = Vec::new();
    for row in ROWS {
        let count = inputs.iter().filter(|input| input.lines == refusal_line(row)).count();
        if count == 0 {
            return Err(format!("no input is refused with {row}"));
        }
        said.push(format!("{row}: {count}"));
    }
    Ok(said.join(", "))
}

/// The inputs for which something else is printed than the judge's lines, each with what differs.
fn differences(inputs: &[Input], print: impl Fn(&Input) -> Result<String, String>) -> Vec<String> {
    let difference = |input: &Input| {
        let outcome = print(input).and_then(|printed| same_lines(&printed, &input.lines));
        outcome.err().map(|what| format!("`{}`: {what}", input.what))
    };
    inputs.iter().filter_map(difference).collect()
}

/// Says which line differs first.
fn same_lines(printed: &str, wanted: &str) -> Result<(), String> {
    if printed == wanted {
        return Ok(());
    }
    let (mut printed, mut wanted) = (printed.split_inclusive('\n'), wanted.split_inclusive('\n'));
    let mut number = 0;
    loop {
        number += 1;
        let (found, line) = (printed.next().unwrap_or(""), wanted.next().unwrap_or(""));
        if found != line {
            return Err(format!("line {number} is {found:?}, not {line:?}"));
        }
    }
}

/// What a program prints for an input, of which it need not read all.
fn run(program: &Path, file: &[u8]) -> Result<String, String> {
    let mut command = Command::new(program);
    let child = command.stdin(Stdio::piped()).stdout(Stdio::piped()).spawn();
    let mut child = child.map_err(|error| error.to_string())?;
    let mut stdin = child.stdin.take().expect("it is piped");
    let (written, output) = std::thread::scope(|scope| {
        let writer = scope.spawn(move || stdin.write_all(file));
        let output = child.wait_with_output();
        (writer.join().expect("it doesn't panic"), output)
    });
    let output = output.map_err(|error| error.to_string())?;
    match written {
        Err(error) if error.kind() != io::ErrorKind::BrokenPipe => Err(error.to_string()),
        _ if !output.status.success() => Err(output.status.to_string()),
        _ => String::from_utf8(output.stdout).map_err(|error| error.to_string()),
    }
}

type Spoil = fn(&str) -> String;

/// Ways to spoil lines.
const SPOILED: [(&str, Spoil); 5] = [
    ("nothing", |_| String::new()),
    ("a line less", |lines| front(lines.trim_end(), '\n').into()),
    ("a line more", |lines| format!("{lines}s 0 6 0 0\n")),
    ("a number less", |lines| format!("{}\n", front(lines, ' '))),
    ("another number", |lines| format!("{}1\n", lines.trim_end())),
];

/// The text before the last such character.
fn front(text: &str, last: char) -> &str {
    text.rsplit_once(last).map_or("", |(front, _)| front)
}

/// The comparison must name every input whose lines are spoiled.
fn wrong_lines_are_seen(inputs: &[Input]) -> Result<(), String> {
    for (what, spoil) in SPOILED {
        let seen = differences(inputs, |input| Ok(spoil(&input.lines))).len();
        if seen != inputs.len() {
            let all = inputs.len();
            return Err(format!("lines spoiled ({what}): {seen} of {all} inputs are named"));
        }
    }
    Ok(())
}
