//! The whole fold on bytes: read and judge, fold by the carried functions, write.

use crate::carried::fold_statements;
use crate::convert::{context_of, read_statements, write_statements};
use crate::record::RecordFile;
use crate::refusal::read_checked;

/// What folding returns. A refusal has an empty result, no folds and no looks.
#[derive(Clone, PartialEq, Eq, Debug, Default)]
pub struct Answer {
    /// The number of the refusal; 0 when the file was folded.
    pub number: u32,
    pub result: Vec<u8>,
    pub folds: u32,
    /// Calls of `substitute_single_use_symbol_in_expression`.
    pub looks: u64,
}

/// Folds the file, with room for so many bytes of output.
pub fn fold(file: &[u8], room: usize) -> Answer {
    match read_checked(file, room) {
        Ok(records) => fold_records(&records),
        Err(number) => Answer { number, ..Answer::default() },
    }
}

/// Folds the records of an accepted file.
fn fold_records(records: &RecordFile) -> Answer {
    let mut context = context_of(records);
    let statements = fold_statements(read_statements(records), &mut context);
    let folded = write_statements(records, &statements);
    let folds = records.declarators.len() - folded.declarators.len();
    Answer {
        number: 0,
        result: folded.to_bytes(),
        folds: u32::try_from(folds).expect("there are at most 500"),
        looks: context.state.looks,
    }
}
