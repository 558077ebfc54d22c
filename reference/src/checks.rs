//! What must hold of every fold, whatever the file.

use crate::build::room_for;
use crate::convert::{read_statements, write_statements};
use crate::fold::{Answer, fold};
use crate::measure::{Measured, measure};
use crate::record::{NODE_BYTES, RecordFile, read_header};
use crate::refusal::{MOST_NODES, ROOM_ROW, read_checked};
use crate::steady::{Steady, fold_until_steady};

/// How many rows the table has.
const ROWS: usize = ROOM_ROW as usize;

/// What was seen.
#[derive(Default)]
pub struct Totals {
    pub files: u64,
    pub refused: [u64; ROWS + 1],
    pub folds: u64,
    /// Files with at least one fold.
    pub folding: u64,
    /// Files that came out changed without a fold.
    pub changed: u64,
    pub most_runs: usize,
    /// Files that were measured, also where the room was short.
    pub measured: u64,
    pub most_looks: u64,
    /// Files that took D + 2 runs.
    pub at_run_limit: u64,
}

impl Totals {
    pub fn add(&mut self, other: &Self) {
        self.files += other.files;
        self.folds += other.folds;
        self.folding += other.folding;
        self.changed += other.changed;
        self.measured += other.measured;
        self.at_run_limit += other.at_run_limit;
        self.most_runs = self.most_runs.max(other.most_runs);
        self.most_looks = self.most_looks.max(other.most_looks);
        for (sum, more) in self.refused.iter_mut().zip(other.refused) {
            *sum += more;
        }
    }

    pub fn accepted(&self) -> u64 {
        self.files - self.refused.iter().sum::<u64>()
    }

    pub fn line(&self) -> String {
        let refused: Vec<String> = (1..=ROWS)
            .filter(|&row| self.refused[row] > 0)
            .map(|row| format!("{row}: {}", self.refused[row]))
            .collect();
        format!(
            "files {}, accepted {}, folding {}, folds {}, changed without fold {}, most runs {}, \
             files that took D + 2 runs {}, measured {}, most looks {}, refused [{}]",
            self.files,
            self.accepted(),
            self.folding,
            self.folds,
            self.changed,
            self.most_runs,
            self.at_run_limit,
            self.measured,
            self.most_looks,
            refused.join(", ")
        )
    }
}

/// A file for which something doesn't hold.
pub struct Finding {
    pub what: String,
    pub file: Vec<u8>,
}

impl Finding {
    pub fn line(&self) -> String {
        let bytes: Vec<String> = self.file.iter().map(|byte| format!("{byte:02x}")).collect();
        format!("FINDING {}: {}", self.what, bytes.concat())
    }
}

/// Folds the file in the room, measures it, and checks the answers.
pub fn check_file(file: &[u8], room: usize, totals: &mut Totals) -> Result<(), Finding> {
    totals.files += 1;
    let answer = fold(file, room);
    let outcome = match read_checked(file, room) {
        Err(number) => check_refusal(number, &answer, totals),
        Ok(records) => check_fold(&records, file, room, &answer, totals),
    };
    let outcome = outcome.and_then(|()| check_measure(file, &answer, totals));
    outcome.map_err(|what| Finding { what, file: file.to_vec() })
}

fn demand(holds: bool, what: impl FnOnce() -> String) -> Result<(), String> {
    if holds { Ok(()) } else { Err(what()) }
}

fn check_refusal(number: u32, answer: &Answer, totals: &mut Totals) -> Result<(), String> {
    totals.refused[usize::try_from(number).expect("it is a row")] += 1;
    let wanted = Answer { number, ..Answer::default() };
    demand(*answer == wanted, || format!("a refusal with {number} returns more than that"))
}

fn check_fold(
    records: &RecordFile,
    file: &[u8],
    room: usize,
    answer: &Answer,
    totals: &mut Totals,
) -> Result<(), String> {
    check_round_trip(records, file)?;
    check_folds(records, answer)?;
    check_result(records, file, &answer.result)?;
    let steady = fold_until_steady(file, room);
    check_repeat(records, room, &steady)?;
    check_result(records, file, &steady.result)?;
    let runs = usize::try_from(steady.runs).expect("small");
    totals.folds += u64::from(answer.folds);
    totals.folding += u64::from(answer.folds > 0);
    totals.changed += u64::from(answer.folds == 0 && answer.result != file);
    totals.most_runs = totals.most_runs.max(runs);
    totals.at_run_limit += u64::from(runs == records.declarators.len() + 2);
    Ok(())
}

/// Reading into trees and writing back changes nothing.
fn check_round_trip(records: &RecordFile, file: &[u8]) -> Result<(), String> {
    let again = write_statements(records, &read_statements(records));
    demand(again.to_bytes() == file, || "reading and writing back changes the file".into())
}

fn check_folds(records: &RecordFile, answer: &Answer) -> Result<(), String> {
    let declarators = records.declarators.len();
    let folds = usize::try_from(answer.folds).expect("small");
    demand(folds <= declarators, || format!("{folds} folds of {declarators} declarators"))
}

/// Measuring gives what the fold gives in enough room, also where the answer's room was short, and
/// at most (T + 2 D) x 3,000 looks.
fn check_measure(file: &[u8], answer: &Answer, totals: &mut Totals) -> Result<(), String> {
    let measured = measure(file);
    let by_fold = if answer.number == ROOM_ROW {
        let declarators = read_header(file).declarators;
        Measured::from(&fold(file, room_for(file, declarators.into())))
    } else {
        Measured::from(answer)
    };
    let same = measured == by_fold && measured.number != ROOM_ROW;
    demand(same, || format!("{measured:?}, {by_fold:?} by the fold"))?;
    if measured.number == 0 {
        let header = read_header(file);
        let most = u64::from(header.statements + 2 * header.declarators) * u64::from(MOST_NODES);
        let looks = measured.looks;
        demand(looks <= most, || format!("{looks} looks, more than {most}"))?;
        totals.measured += 1;
        totals.most_looks = totals.most_looks.max(looks);
    }
    Ok(())
}

/// The result of one run or of several: it isn't too long, and options and scopes of the header,
/// facts, scopes and frames are those of the file.
fn check_result(records: &RecordFile, file: &[u8], result: &[u8]) -> Result<(), String> {
    let most = room_for(file, records.declarators.len());
    let length = result.len();
    demand(length <= most, || format!("a result has {length} bytes, more than {most}"))?;
    let header = records.header();
    let tail = 4 * (records.declarators.len() + records.statements.len());
    let facts = 24..header.file_bytes() - tail - NODE_BYTES * records.nodes.len();
    let same = |part: std::ops::Range<usize>| result.get(part.clone()) == file.get(part);
    let copied = same(0..12) && same(18..24) && same(facts);
    demand(copied, || "facts, scopes, frames or options aren't copied".into())
}

/// Every run was accepted, there were at most D + 2, their folds are the declarators that are gone,
/// and folding the last result gives it back.
fn check_repeat(records: &RecordFile, room: usize, steady: &Steady) -> Result<(), String> {
    let Steady { number, folds, runs, ref result } = *steady;
    demand(number == 0, || format!("a result is refused with {number}"))?;
    let declarators = u32::from(records.header().declarators);
    demand(runs <= declarators + 2, || format!("{runs} runs, {declarators} declarators"))?;
    let left = u32::from(read_header(result).declarators);
    let sum = || format!("all runs: {folds} folds, {left} of {declarators} declarators are left");
    demand(folds + left == declarators, sum)?;
    let again = fold(result, room);
    let stays = again.number == 0 && again.folds == 0 && again.result == *result;
    demand(stays, || "the last result doesn't stay".into())
}
