//! The functions of the library called on a file, with an output that tells what was written.

use std::fmt::Debug;

use reference::fold::Answer;
use reference::steady::Steady;
use wsf::raw::{WsfMeasure, wsf_fold, wsf_fold_until_steady, wsf_measure};

/// Bytes on either side of the output, which nobody may write.
const GUARD: usize = 64;
/// No output is longer.
pub const MOST_ROOM: usize = 65536;
/// The library is called at each offset from a multiple of this.
const ALIGNMENT: usize = 8;
/// The output starts at so many places of the pattern.
const PLACES: usize = 4096;

/// The numbers that a fold returns. Those of `wsf_fold` have no runs.
#[derive(Clone, Copy, PartialEq, Eq, Debug, Default)]
pub struct Returned {
    pub number: u64,
    pub length: u64,
    pub folds: u64,
    pub runs: u64,
}

/// A function of the library that folds.
#[derive(Clone, Copy)]
pub struct Function {
    pub name: &'static str,
    pub call: fn(&[u8], &mut [u8]) -> Returned,
}

pub const FUNCTIONS: [Function; 2] = [
    Function { name: "wsf_fold", call: fold },
    Function { name: "wsf_fold_until_steady", call: fold_until_steady },
];

pub fn fold(file: &[u8], output: &mut [u8]) -> Returned {
    // SAFETY: two slices that are borrowed apart.
    let it = unsafe { wsf_fold(file.as_ptr(), file.len(), output.as_mut_ptr(), output.len()) };
    Returned { number: it.number, length: it.length, folds: it.folds, runs: 0 }
}

pub fn fold_until_steady(file: &[u8], output: &mut [u8]) -> Returned {
    let (room, at) = (output.len(), output.as_mut_ptr());
    // SAFETY: two slices that are borrowed apart.
    let it = unsafe { wsf_fold_until_steady(file.as_ptr(), file.len(), at, room) };
    Returned { number: it.number, length: it.length, folds: it.folds, runs: it.runs }
}

pub fn measure(file: &[u8]) -> WsfMeasure {
    // SAFETY: a slice.
    unsafe { wsf_measure(file.as_ptr(), file.len()) }
}

/// What the judge says of a fold: the numbers, and the bytes at the start of the output.
#[derive(Clone, Copy)]
pub struct Judged<'r> {
    pub returned: Returned,
    pub result: &'r [u8],
}

impl Judged<'_> {
    pub fn refusal(number: u32) -> Self {
        Self { returned: Returned { number: number.into(), ..Returned::default() }, result: &[] }
    }
}

impl<'r> From<&'r Answer> for Judged<'r> {
    fn from(it: &'r Answer) -> Self {
        let length = it.result.len() as u64;
        let (number, folds) = (it.number.into(), it.folds.into());
        Self { returned: Returned { number, length, folds, runs: 0 }, result: &it.result }
    }
}

impl<'r> From<&'r Steady> for Judged<'r> {
    fn from(it: &'r Steady) -> Self {
        let length = it.result.len() as u64;
        let (number, folds, runs) = (it.number.into(), it.folds.into(), it.runs.into());
        Self { returned: Returned { number, length, folds, runs }, result: &it.result }
    }
}

/// Buffers for calls of the library.
pub struct Caller {
    /// What the output and its guards hold before a call, from some place on.
    pattern: Vec<u8>,
    buffer: Vec<u8>,
    file: Vec<u8>,
    calls: usize,
    /// Where it is given, each call has a thread with such a stack.
    stack: Option<usize>,
}

impl Caller {
    pub fn new(stack: Option<usize>) -> Self {
        let mut random = reference::random::Random::new(7, 7);
        let mut byte = || random.next().to_le_bytes()[0];
        let pattern = (0..PLACES + MOST_ROOM + 2 * GUARD).map(|_| byte()).collect();
        Self { pattern, buffer: Vec::new(), file: Vec::new(), calls: 0, stack }
    }

    /// Folds by the function and says what isn't as the judge has it.
    pub fn compare_fold(
        &mut self,
        function: Function,
        file: &[u8],
        room: usize,
        judged: Judged,
    ) -> Result<(), String> {
        let shift = self.place(file);
        let before = &self.pattern[self.calls % PLACES..][..room + 2 * GUARD];
        fill(&mut self.buffer, shift, before);
        let output = &mut self.buffer[shift + GUARD..shift + GUARD + room];
        let given = &self.file[shift..];
        let returned = on_stack_or_here(self.stack, || (function.call)(given, output));
        same_numbers(returned, judged.returned)?;
        let after = &self.buffer[shift..];
        let end = GUARD + judged.result.len();
        same_bytes(&after[GUARD..end], judged.result, "the result")?;
        same_bytes(&after[end..], &before[end..], "behind the result")?;
        same_bytes(&after[..GUARD], &before[..GUARD], "before the output")?;
        same_bytes(given, file, "the file")
    }

    /// Measures and says what isn't as the judge has it.
    pub fn compare_measure(&mut self, file: &[u8], judged: WsfMeasure) -> Result<(), String> {
        let shift = self.place(file);
        let given = &self.file[shift..];
        let returned = on_stack_or_here(self.stack, || measure(given));
        same_numbers(returned, judged)?;
        same_bytes(given, file, "the file")
    }

    /// Copies the file to where the next call gets it, and says how far from a multiple of the
    /// alignment that is.
    fn place(&mut self, file: &[u8]) -> usize {
        self.calls += 1;
        let shift = self.calls % ALIGNMENT;
        fill(&mut self.file, shift, file);
        shift
    }
}

/// The bytes, behind so many zeros.
fn fill(buffer: &mut Vec<u8>, shift: usize, bytes: &[u8]) {
    buffer.clear();
    buffer.resize(shift, 0);
    buffer.extend_from_slice(bytes);
}

/// Runs it on a thread with a stack of so many bytes.
pub fn on_stack<T: Send>(bytes: usize, run: impl FnOnce() -> T + Send) -> T {
    std::thread::scope(|scope| {
        let thread = std::thread::Builder::new().stack_size(bytes);
        thread.spawn_scoped(scope, run).expect("a thread starts").join().expect("it ends")
    })
}

/// The same where a size is given, else runs it on the caller's stack.
fn on_stack_or_here<T: Send>(stack: Option<usize>, run: impl FnOnce() -> T + Send) -> T {
    match stack {
        Some(bytes) => on_stack(bytes, run),
        None => run(),
    }
}

fn same_numbers<T: PartialEq + Debug>(found: T, wanted: T) -> Result<(), String> {
    if found == wanted { Ok(()) } else { Err(format!("{found:?}, not {wanted:?}")) }
}

fn same_bytes(found: &[u8], wanted: &[u8], what: &str) -> Result<(), String> {
    if found == wanted {
        return Ok(());
    }
    let at = found.iter().zip(wanted).take_while(|(found, wanted)| found == wanted).count();
    Err(format!("{what}: byte {at} is {:?}, not {:?}", found.get(at), wanted.get(at)))
}
