//! The length of a fold's result and the looks of the fold, without an output.

use crate::fold::{Answer, fold};

/// What measuring returns. A refusal has length 0 and no looks.
#[derive(Clone, Copy, PartialEq, Eq, Debug, Default)]
pub struct Measured {
    /// The number of the refusal, never that of the room; 0 when the file was measured.
    pub number: u32,
    /// The bytes of the result.
    pub length: usize,
    /// Calls of `substitute_single_use_symbol_in_expression`.
    pub looks: u64,
}

/// Measures the file by a fold in a room that is enough for every file.
pub fn measure(file: &[u8]) -> Measured {
    Measured::from(&fold(file, usize::MAX))
}

/// What was measured, by the answer of a fold that had room enough.
impl From<&Answer> for Measured {
    fn from(answer: &Answer) -> Self {
        Self { number: answer.number, length: answer.result.len(), looks: answer.looks }
    }
}
