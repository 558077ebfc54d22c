//! The fold repeated until the bytes stay the same.

use crate::fold::{Answer, fold};

/// What the repeat returns. A refusal has an empty result, no folds and no runs.
#[derive(Clone, PartialEq, Eq, Debug, Default)]
pub struct Steady {
    /// The number of the refusal; 0 when the file was folded.
    pub number: u32,
    /// What the last run was given and gave.
    pub result: Vec<u8>,
    /// Declarators folded, by all runs.
    pub folds: u32,
    /// The runs, the last one counted, which changes nothing.
    pub runs: u32,
}

/// Folds the file, then each result, in the same room, until one stays as it is.
pub fn fold_until_steady(file: &[u8], room: usize) -> Steady {
    Steady::of_runs(runs(file, room))
}

impl Steady {
    /// What the runs give together.
    pub fn of_runs(runs: impl IntoIterator<Item = Answer>) -> Self {
        let mut steady = Self::default();
        for answer in runs {
            if answer.number != 0 {
                return Self { number: answer.number, ..Self::default() };
            }
            steady.result = answer.result;
            steady.folds += answer.folds;
            steady.runs += 1;
        }
        steady
    }
}

/// The answers of the runs. The last one is a refusal, or gives the bytes that it was given.
pub fn runs(file: &[u8], room: usize) -> impl Iterator<Item = Answer> {
    let mut next = Some(file.to_vec());
    std::iter::from_fn(move || {
        let given = next.take()?;
        let answer = fold(&given, room);
        if answer.number == 0 && answer.result != given {
            next = Some(answer.result.clone());
        }
        Some(answer)
    })
}
