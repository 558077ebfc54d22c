//! The whole check: scripts, numbers worked out by hand, kept answers, and what must hold of every
//! fold.

use std::fs;
use std::path::Path;
use std::time::Instant;

use super::write::{STEADY, paths_of, script_paths};
use crate::answer_list::lists;
use crate::answers::{entries, replay};
use crate::checks::{Finding, Totals, check_file};
use crate::fold::fold;
use crate::foldlist::foldlist;
use crate::generate::case::Case;
use crate::generate::damage::damaged_case;
use crate::generate::exhaustive::{Emit, passed_files, small_files};
use crate::generate::facts::facts;
use crate::generate::limits::limits;
use crate::generate::looks::looked;
use crate::generate::nests::nests;
use crate::generate::random_file::random_file;
use crate::generate::refusals::refusals;
use crate::generate::rules::rules;
use crate::generate::runs::{Repeat, repeats};
use crate::generate::shapes::{Shape, shapes};
use crate::generate::worked_out;
use crate::measure::{Measured, measure};
use crate::origin::as_compared;
use crate::scripts::{Script, scripts};
use crate::steady::{Steady, fold_until_steady};

/// How much is generated.
#[derive(Clone, Copy)]
pub struct Amount {
    pub random: u64,
    pub damaged: u64,
    pub small_nodes: usize,
    pub passed_nodes: usize,
    pub seed: u64,
}

pub const FULL: Amount =
    Amount { random: 1_200_000, damaged: 400_000, small_nodes: 4, passed_nodes: 3, seed: 1 };
pub const SHORT: Amount =
    Amount { random: 60_000, damaged: 40_000, small_nodes: 3, passed_nodes: 2, seed: 1 };

/// Prints what was compared. The number of differences.
pub fn check_all(directory: &Path, amount: Amount) -> usize {
    let mut report = Report { differences: 0 };
    report.part("carried functions", as_compared);
    report.part("scripts", || check_scripts(directory));
    report.part("expected numbers", check_expected);
    report.part("rules", check_rules);
    report.part("shapes", check_shapes);
    report.part("runs", || check_runs(directory));
    report.part("looks", check_looks);
    report.part("kept answers", || check_answers(directory));
    check_generated(&mut report, amount);
    report.differences
}

/// Counts the differences and prints them.
struct Report {
    differences: usize,
}

impl Report {
    /// Runs a part, which gives what it compared or what differs.
    fn part(&mut self, what: &str, run: impl FnOnce() -> Result<String, String>) {
        let start = Instant::now();
        match run() {
            Ok(compared) => println!("{what}: {compared} ({:.1?})", start.elapsed()),
            Err(difference) => {
                self.differences += 1;
                println!("{what}: DIFFERENT: {difference}");
            }
        }
    }
}

fn read(path: &Path) -> Result<Vec<u8>, String> {
    fs::read(path).map_err(|error| format!("{}: {error}", path.display()))
}

fn demand(holds: bool, what: impl FnOnce() -> String) -> Result<(), String> {
    if holds { Ok(()) } else { Err(what()) }
}

/// The kept files are the scripts, and folding them gives the stated results.
fn check_scripts(directory: &Path) -> Result<String, String> {
    let scripts = scripts();
    for script in &scripts {
        check_script(directory, script)
            .map_err(|what| format!("script {} `{}`: {what}", script.number, script.text))?;
    }
    check_first_script(&scripts[0])?;
    Ok(format!("{} files folded to the stated results", scripts.len()))
}

fn check_script(directory: &Path, script: &Script) -> Result<(), String> {
    let (file, result) = script_paths(directory, script);
    let (file, result) = (read(&file)?, read(&result)?);
    demand(file == script.file.to_bytes(), || "the kept file isn't the script".into())?;
    demand(result == script.result.to_bytes(), || "the kept result isn't the stated one".into())?;
    let room = Case::new("", file.clone()).room;
    let answer = fold(&file, room);
    demand(answer.number == 0, || format!("refused with {}", answer.number))?;
    demand(answer.result == result, || format!("doesn't fold to `{}`", script.result_text))?;
    demand(answer.folds == script.folds, || format!("{} folds", answer.folds))?;
    let (measured, looks) = (measure(&file), script.looks);
    let wanted = Measured { number: 0, length: result.len(), looks };
    demand(measured == wanted, || format!("{measured:?}, not {wanted:?}"))
}

/// The lengths and lines that are stated for script 1.
fn check_first_script(script: &Script) -> Result<(), String> {
    let (file, result) = (script.file.to_bytes(), script.result.to_bytes());
    let lengths = (file.len(), result.len());
    demand(lengths == (112, 92), || format!("script 1 has lengths {lengths:?}"))?;
    let lines = foldlist(&file);
    demand(lines == "fold 1 statements 1 nodes 3\ns 0 5 0 3\n", || format!("script 1: {lines}"))
}

/// The cases whose number was worked out by hand.
fn check_expected() -> Result<String, String> {
    let mut count = 0;
    for case in refusals().into_iter().chain(limits()) {
        let number = fold(&case.file, case.room).number;
        let expected = case.expected.expect("these cases have one");
        demand(number == expected, || format!("{}: {number}, not {expected}", case.what))?;
        count += 1;
    }
    Ok(format!("{count} files returned the numbers worked out by hand"))
}

/// The files of single rules, whose folds were worked out by hand.
fn check_rules() -> Result<String, String> {
    let rules = rules();
    for rule in &rules {
        let case = rule.case();
        let answer = fold(&case.file, case.room);
        let holds = answer.number == 0 && answer.folds == rule.folds;
        demand(holds, || format!("`{}`: {} folds, not {}", rule.text, answer.folds, rule.folds))?;
    }
    Ok(format!("{} files had the folds worked out by hand", rules.len()))
}

/// The Rust folds the four shapes.
fn check_shapes() -> Result<String, String> {
    let shapes = shapes();
    for shape in &shapes {
        let case = shape.case();
        let folds = fold(&case.file, case.room).folds;
        let Shape { letter, text, result_text, .. } = shape;
        demand(folds == 1, || format!("({letter}) `{text}` doesn't fold to `{result_text}`"))?;
    }
    let letters: Vec<String> = shapes.iter().map(|shape| shape.letter.to_string()).collect();
    Ok(format!("the Rust folds {}", letters.join(", ")))
}

/// The files of the repeat, whose runs, folds and results were worked out by hand.
fn check_runs(directory: &Path) -> Result<String, String> {
    let repeats = repeats();
    for repeat in &repeats {
        check_run(repeat).map_err(|what| format!("`{}`: {what}", repeat.text))?;
    }
    let first = &repeats[0];
    let (file, result) = paths_of(directory, STEADY);
    let kept = read(&file)? == first.file.to_bytes() && read(&result)? == first.result.to_bytes();
    demand(kept, || format!("the kept files aren't `{}` and its result", first.text))?;
    Ok(format!("{} files had the runs, folds and results worked out by hand", repeats.len()))
}

fn check_run(repeat: &Repeat) -> Result<(), String> {
    let Repeat { folds, runs, .. } = *repeat;
    let [enough, less] = repeat.cases();
    let wanted = Steady { number: 0, result: repeat.result.to_bytes(), folds, runs };
    let found = fold_until_steady(&enough.file, enough.room);
    let numbers = |it: &Steady| (it.number, it.folds, it.runs);
    let differ = || format!("{:?}, not {:?}", numbers(&found), numbers(&wanted));
    demand(numbers(&found) == numbers(&wanted), differ)?;
    demand(found == wanted, || format!("doesn't give `{}`", repeat.result_text))?;
    let refused = Steady { number: 11, ..Steady::default() };
    let found = fold_until_steady(&less.file, less.room);
    demand(found == refused, || format!("{:?} in a byte less", numbers(&found)))
}

/// The files whose looks were worked out by hand.
fn check_looks() -> Result<String, String> {
    let files = looked();
    for it in &files {
        let Measured { number, looks, .. } = measure(&it.case().file);
        let holds = number == 0 && looks == it.looks();
        let differ = || format!("`{}`: {looks} looks, not at `{}`", it.text, it.entered);
        demand(holds, differ)?;
    }
    Ok(format!("{} files had the looks worked out by hand", files.len()))
}

/// The kept lists are those that are made anew, and they read back.
fn check_answers(directory: &Path) -> Result<String, String> {
    let mut said = Vec::new();
    for list in lists() {
        let (bytes, expected) = (entries(&list.cases), list.cases.len());
        let count = replay(&bytes)?.entries;
        for path in list.paths {
            let kept = read(&directory.join(path))?;
            demand(kept == bytes, || format!("{path} isn't the list made anew"))?;
            demand(count == expected, || format!("{path}: {count} entries, not {expected}"))?;
            said.push(format!("{path}: {count} entries, {} bytes", kept.len()));
        }
    }
    Ok(format!("{}, made anew byte for byte", said.join("; ")))
}

/// What `check_file` asks.
const EACH_FILE: &str = "refused with nothing returned; or read and written back unchanged, folded \
                         with facts, scopes, frames and options copied, a result of at most \
                         length + 8 D bytes and at most D folds, every result accepted again in \
                         the same room, at most D + 2 runs and D folds until steady, the last \
                         result folded to itself; measured as folded in enough room, whatever the \
                         room is, with at most (T + 2 D) 3000 looks";

/// Files that are made now, family by family.
fn check_generated(report: &mut Report, amount: Amount) {
    println!("each file below: {EACH_FILE}");
    let mut all = Totals::default();
    let mut family = |what: &str, run: &dyn Fn(&mut Family)| {
        report.part(what, || {
            let mut family = Family::default();
            run(&mut family);
            all.add(&family.totals);
            family.outcome()
        });
    };
    family("hand-made files", &|family| worked_out().for_each(|case| family.check(&case)));
    family("deep nests", &|family| {
        nests().iter().for_each(|(what, file)| family.check(&Case::of_records(what, file)));
    });
    family("small trees", &|family| {
        family.check_each(|emit| small_files(amount.small_nodes, emit))
    });
    family("passed trees", &|family| {
        family.check_each(|emit| passed_files(amount.passed_nodes, emit));
    });
    family("facts", &|family| facts(&mut |case| family.check(&case)));
    family("random files", &|family| {
        for case in 0..amount.random {
            let file = random_file(amount.seed, case, size_of(case));
            family.check(&Case::of_records("random", &file));
        }
    });
    family("damaged files", &|family| {
        for case in 0..amount.damaged {
            family.check(&damaged_case(amount.seed, case, size_of(case)));
        }
    });
    println!("all: {}", all.line());
}

/// Of random files: mostly small trees, now and then a large one.
pub fn size_of(case: u64) -> usize {
    if case % 50 == 0 { 200 } else { 8 + usize::try_from(case % 3).expect("small") * 8 }
}

/// What was seen of a family of files.
#[derive(Default)]
struct Family {
    totals: Totals,
    findings: Vec<Finding>,
}

impl Family {
    fn check(&mut self, case: &Case) {
        if let Err(finding) = check_file(&case.file, case.room, &mut self.totals) {
            self.findings.push(finding);
        }
    }

    fn check_each(&mut self, each: impl FnOnce(Emit)) {
        each(&mut |_, file| self.check(&Case::of_records("", &file)));
    }

    fn outcome(&self) -> Result<String, String> {
        self.findings.iter().take(10).for_each(|finding| println!("{}", finding.line()));
        demand(self.findings.is_empty(), || format!("{} findings", self.findings.len()))?;
        Ok(self.totals.line())
    }
}
