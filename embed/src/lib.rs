//! Folds names that are used once in a record file. The work is done by `libwsf.a`, whose code is
//! proved; `docs/EMBEDDING.md` has what a loader's author needs to know.
//!
//! No allocation, no global state: any number of threads may call at the same time.

#![no_std]

pub mod raw;
mod refusal;

pub use refusal::Refusal;

/// Room that is enough for every file: no accepted file wants more.
pub const MOST_ROOM: usize = 42_248;

/// What a declarator can add to a file's length.
const ROOM_PER_DECLARATOR: usize = 8;

/// Where the header's count of declarators stands, and how long a header is.
const DECLARATORS_AT: usize = 14;
const HEADER_BYTES: usize = 24;

/// A file was folded.
#[derive(Clone, Copy, PartialEq, Eq, Debug)]
pub struct Folded {
    /// The result is so many bytes at the start of the output.
    pub length: usize,
    /// So many declarators are gone.
    pub folds: usize,
}

/// A file was folded until a run changed nothing.
#[derive(Clone, Copy, PartialEq, Eq, Debug)]
pub struct Steady {
    /// The last result is so many bytes at the start of the output.
    pub length: usize,
    /// So many declarators are gone, by all runs.
    pub folds: usize,
    /// So many runs were made, the last one counted, which changed nothing.
    pub runs: usize,
}

/// A file was measured: the length of the result that `fold` gives, and the fold's looks.
#[derive(Clone, Copy, PartialEq, Eq, Debug)]
pub struct Measured {
    /// The result has exactly so many bytes.
    pub length: usize,
    /// So often the fold's searches enter an expression: at most (T + 2 D) x 3,000, with T
    /// statements and D declarators in the file.
    pub looks: usize,
}

/// Folds the file and writes the result to the start of the output. What stands behind the result
/// stays as it was; so does the whole output if the file is refused.
pub fn fold(file: &[u8], output: &mut [u8]) -> Result<Folded, Refusal> {
    // SAFETY: both are slices, so each pointer is good for its length, and the borrows keep them
    // apart. `wsf_fold` asks no more.
    let answer =
        unsafe { raw::wsf_fold(file.as_ptr(), file.len(), output.as_mut_ptr(), output.len()) };
    accepted(answer.number)?;
    Ok(Folded { length: size(answer.length), folds: size(answer.folds) })
}

/// Folds the file, then each result, until a run changes nothing, and writes the last result to the
/// start of the output. It refuses what `fold` refuses and wants the same room. What stands behind
/// the last result stays as it was; so does the whole output if the file is refused.
pub fn fold_until_steady(file: &[u8], output: &mut [u8]) -> Result<Steady, Refusal> {
    let (to, room) = (output.as_mut_ptr(), output.len());
    // SAFETY: as in `fold`.
    let answer = unsafe { raw::wsf_fold_until_steady(file.as_ptr(), file.len(), to, room) };
    accepted(answer.number)?;
    let [length, folds, runs] = [answer.length, answer.folds, answer.runs].map(size);
    Ok(Steady { length, folds, runs })
}

/// Works out, without an output, the length of the result that `fold` gives, and the fold's looks.
/// It refuses what `fold` refuses, but never with `Refusal::Room`; what it accepts is folded in
/// every output of `room_for` bytes or more.
pub fn measure(file: &[u8]) -> Result<Measured, Refusal> {
    // SAFETY: it is a slice, so its pointer is good for its length. `wsf_measure` asks no more.
    let answer = unsafe { raw::wsf_measure(file.as_ptr(), file.len()) };
    accepted(answer.number)?;
    Ok(Measured { length: size(answer.length), looks: size(answer.looks) })
}

/// What a returned number says.
fn accepted(number: u64) -> Result<(), Refusal> {
    match number {
        0 => Ok(()),
        row => Err(Refusal::of_number(row).expect("the library returns 0 to 11")),
    }
}

/// The room that a fold wants for this file, once or until steady: its length and 8 bytes a
/// declarator. Never more than `MOST_ROOM`, which is enough for every accepted file.
///
/// This is what the output has to have, by the file's length and header alone; the result may be
/// shorter. The length of the result itself is what `measure` gives.
pub fn room_for(file: &[u8]) -> usize {
    let declarators = match file.get(DECLARATORS_AT..DECLARATORS_AT + 2) {
        Some(count) if file.len() >= HEADER_BYTES => u16::from_le_bytes([count[0], count[1]]),
        _ => 0,
    };
    file.len().saturating_add(ROOM_PER_DECLARATOR * usize::from(declarators)).min(MOST_ROOM)
}

/// A length or a count of an answer. The greatest are looks, at most (500 + 2 x 500) x 3,000.
fn size(number: u64) -> usize {
    usize::try_from(number).expect("it is small")
}
