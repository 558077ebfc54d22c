//! The calls of one function of the library: what was seen, and what differs.

use reference::measure::Measured;
use wsf::raw::WsfMeasure;

use crate::call::{Caller, Function, Judged};

/// So many differences of a function on a family are printed.
const MOST_PRINTED: u64 = 10;

/// Calls of a function that folds.
pub struct Folds {
    function: Function,
    /// Calls that folded at least one declarator.
    folding: u64,
    folds: u64,
    runs: u64,
    /// Calls that gave the file, changed without a fold.
    changed: u64,
    differences: Differences,
}

impl Folds {
    pub fn new(function: Function) -> Self {
        let differences = Differences::default();
        Self { function, folding: 0, folds: 0, runs: 0, changed: 0, differences }
    }

    /// One call, held to what the judge says.
    pub fn call(&mut self, caller: &mut Caller, file: &[u8], room: usize, judged: Judged) {
        let wanted = judged.returned;
        self.folding += u64::from(wanted.folds > 0);
        self.folds += wanted.folds;
        self.runs += wanted.runs;
        let changed = wanted.number == 0 && wanted.folds == 0 && judged.result != file;
        self.changed += u64::from(changed);
        let outcome = caller.compare_fold(self.function, file, room, judged);
        let which = || format!("{} in room {room}", self.function.name);
        self.differences.note(outcome, which, file);
    }

    pub fn add(&mut self, other: &Self) {
        self.folding += other.folding;
        self.folds += other.folds;
        self.runs += other.runs;
        self.changed += other.changed;
        self.differences.0 += other.differences.0;
    }

    pub fn differences(&self) -> u64 {
        self.differences.0
    }

    pub fn line(&self) -> String {
        let Self { function, folding, folds, changed, differences, .. } = self;
        let runs = if self.runs > 0 { format!("runs {}, ", self.runs) } else { String::new() };
        format!(
            "{}: folding {folding}, folds {folds}, {runs}changed without fold {changed}, \
             differences {}",
            function.name, differences.0,
        )
    }
}

/// Calls of `wsf_measure`.
#[derive(Default)]
pub struct Measures {
    calls: u64,
    /// Calls that refused nothing.
    measured: u64,
    looks: u64,
    differences: Differences,
}

impl Measures {
    /// One call, held to what the judge says.
    pub fn call(&mut self, caller: &mut Caller, file: &[u8], judged: Measured) {
        self.calls += 1;
        self.measured += u64::from(judged.number == 0);
        self.looks += judged.looks;
        let Measured { number, length, looks } = judged;
        let wanted = WsfMeasure { number: number.into(), length: length as u64, looks };
        let outcome = caller.compare_measure(file, wanted);
        self.differences.note(outcome, || "wsf_measure".into(), file);
    }

    pub fn add(&mut self, other: &Self) {
        self.calls += other.calls;
        self.measured += other.measured;
        self.looks += other.looks;
        self.differences.0 += other.differences.0;
    }

    pub fn differences(&self) -> u64 {
        self.differences.0
    }

    pub fn line(&self) -> String {
        let Self { calls, measured, looks, differences } = self;
        format!(
            "wsf_measure: calls {calls}, measured {measured}, looks {looks}, differences {}",
            differences.0
        )
    }
}

/// How many calls differ.
#[derive(Default)]
struct Differences(u64);

impl Differences {
    /// Counts what differs and prints it with the file.
    fn note(&mut self, outcome: Result<(), String>, which: impl Fn() -> String, file: &[u8]) {
        let Err(what) = outcome else { return };
        self.0 += 1;
        if self.0 <= MOST_PRINTED {
            let bytes: Vec<String> = file.iter().map(|byte| format!("{byte:02x}")).collect();
            println!("DIFFERENT: {}: {what}: file {}", which(), bytes.concat());
        }
    }
}
