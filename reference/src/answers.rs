//! The kept answers: how an entry stands in bytes. `README.md` describes the form.

use crate::fold::{Answer, fold};
use crate::generate::case::Case;
use crate::measure::{Measured, measure};
use crate::refusal::ROOM_ROW;
use crate::steady::{Steady, fold_until_steady};

/// Lengths after which a stretch of bytes may repeat: one record, and two or three of them.
const PERIODS: [usize; 5] = [4, 8, 12, 24, 36];
/// Stands for the length of a result that is the bytes before it: of the fold's, if it is the file
/// itself, of the repeat's, if it is the fold's.
const SAME: u32 = u32::MAX;
/// A repetition is worth a segment of its own from so many bytes on.
const WORTHWHILE: usize = 64;

/// Bytes that stand so many times.
struct Segment<'b> {
    times: usize,
    bytes: &'b [u8],
}

/// Cuts bytes into segments, the repeated stretches into one each.
fn segments(bytes: &[u8]) -> Vec<Segment<'_>> {
    let mut out = Vec::new();
    let (mut start, mut at) = (0, 0);
    while at < bytes.len() {
        match repetition(&bytes[at..]) {
            Some((period, times)) => {
                push_once(&bytes[start..at], &mut out);
                out.push(Segment { times, bytes: &bytes[at..at + period] });
                at += period * times;
                start = at;
            }
            None => at += 1,
        }
    }
    push_once(&bytes[start..], &mut out);
    out
}

fn push_once<'b>(bytes: &'b [u8], out: &mut Vec<Segment<'b>>) {
    if !bytes.is_empty() {
        out.push(Segment { times: 1, bytes });
    }
}

/// The period at the front and how often it stands there, if that is worthwhile.
fn repetition(bytes: &[u8]) -> Option<(usize, usize)> {
    let times = |period: usize| {
        let (first, rest) = bytes.split_at_checked(period)?;
        let more = rest.chunks_exact(period).take_while(|chunk| *chunk == first).count();
        let saved = period * more;
        (saved >= WORTHWHILE).then_some((period, more + 1))
    };
    PERIODS.into_iter().find_map(times)
}

fn number(value: usize) -> [u8; 4] {
    u32::try_from(value).expect("it fits").to_le_bytes()
}

fn write_bytes(bytes: &[u8], out: &mut Vec<u8>) {
    for segment in segments(bytes) {
        out.extend(number(segment.times));
        out.extend(number(segment.bytes.len()));
        out.extend(segment.bytes);
    }
}

/// Puts the case, its answer, what the repeat gives and what measuring gives behind the entries
/// written so far.
pub fn write_entry(case: &Case, out: &mut Vec<u8>) {
    let answer = fold(&case.file, case.room);
    let steady = fold_until_steady(&case.file, case.room);
    let measured = measure(&case.file);
    out.extend(number(case.room));
    out.extend(answer.number.to_le_bytes());
    out.extend(answer.folds.to_le_bytes());
    out.extend(number(usize::try_from(measured.looks).expect("it fits")));
    out.extend(number(case.file.len()));
    let accepted = answer.number == 0;
    let result = (!accepted || answer.result != case.file).then_some(&answer.result);
    let last = (!accepted || steady.result != answer.result).then_some(&steady.result);
    let length = |bytes: Option<&Vec<u8>>| bytes.map_or(SAME.to_le_bytes(), |it| number(it.len()));
    out.extend(length(result));
    out.extend(steady.folds.to_le_bytes());
    out.extend(steady.runs.to_le_bytes());
    out.extend(length(last));
    out.extend(number(measured.length));
    let parts = [Some(&case.file), result, last];
    parts.into_iter().flatten().for_each(|bytes| write_bytes(bytes, out));
}

/// The entries of these cases.
pub fn entries(cases: &[Case]) -> Vec<u8> {
    let mut out = Vec::new();
    cases.iter().for_each(|case| write_entry(case, &mut out));
    out
}

/// An entry taken apart again.
struct Entry {
    room: usize,
    file: Vec<u8>,
    answer: Answer,
    steady: Steady,
    measured: Measured,
}

/// Reads entries until the bytes end.
struct Reader<'b>(&'b [u8]);

impl Reader<'_> {
    fn take(&mut self, count: usize) -> Option<&[u8]> {
        let (front, rest) = self.0.split_at_checked(count)?;
        self.0 = rest;
        Some(front)
    }

    fn number(&mut self) -> Option<usize> {
        let bytes = self.take(4)?.try_into().expect("four were taken");
        usize::try_from(u32::from_le_bytes(bytes)).ok()
    }

    /// Segments until so many bytes are there.
    fn bytes(&mut self, length: usize) -> Option<Vec<u8>> {
        let mut out = Vec::new();
        while out.len() < length {
            let (times, count) = (self.number()?, self.number()?);
            out.extend(self.take(count)?.repeat(times));
        }
        (out.len() == length).then_some(out)
    }

    /// So many bytes, or those before them.
    fn bytes_or(&mut self, length: usize, before: &[u8]) -> Option<Vec<u8>> {
        let same = u32::try_from(length) == Ok(SAME);
        if same { Some(before.to_vec()) } else { self.bytes(length) }
    }

    fn count(&mut self) -> Option<u32> {
        u32::try_from(self.number()?).ok()
    }

    fn entry(&mut self) -> Option<Entry> {
        let (room, number) = (self.number()?, self.count()?);
        let (folds, looks) = (self.count()?, u64::from(self.count()?));
        let (file, result) = (self.number()?, self.number()?);
        let (all_folds, runs, last) = (self.count()?, self.count()?, self.number()?);
        let length = self.number()?;
        let file = self.bytes(file)?;
        let result = self.bytes_or(result, &file)?;
        let last = self.bytes_or(last, &result)?;
        let looks_of_answer = if number == 0 { looks } else { 0 };
        let answer = Answer { number, result, folds, looks: looks_of_answer };
        let steady = Steady { number, result: last, folds: all_folds, runs };
        let row = if number == ROOM_ROW { 0 } else { number };
        let measured = Measured { number: row, length, looks };
        Some(Entry { room, file, answer, steady, measured })
    }
}

impl Iterator for Reader<'_> {
    type Item = Result<Entry, String>;

    fn next(&mut self) -> Option<Self::Item> {
        if self.0.is_empty() {
            return None;
        }
        let left = self.0.len();
        let entry = self.entry();
        if entry.is_none() {
            self.0 = &[];
        }
        Some(entry.ok_or_else(|| format!("an entry is cut short, {left} bytes before the end")))
    }
}

/// What the entries of a list hold.
#[derive(Default)]
pub struct Totals {
    pub entries: usize,
    accepted: usize,
    folds: u64,
    bytes: usize,
    all_folds: u64,
    runs: u64,
    last_bytes: usize,
    measured: usize,
    measured_bytes: usize,
    looks: u64,
}

impl Totals {
    fn add(&mut self, entry: &Entry) {
        let Entry { answer, steady, measured, .. } = entry;
        self.entries += 1;
        self.accepted += usize::from(answer.number == 0);
        self.folds += u64::from(answer.folds);
        self.bytes += answer.result.len();
        self.all_folds += u64::from(steady.folds);
        self.runs += u64::from(steady.runs);
        self.last_bytes += steady.result.len();
        self.measured += usize::from(measured.number == 0);
        self.measured_bytes += measured.length;
        self.looks += measured.looks;
    }

    pub fn line(&self) -> String {
        let Self { entries, accepted, folds, bytes, all_folds, runs, last_bytes, .. } = self;
        let Self { measured, measured_bytes, looks, .. } = self;
        format!(
            "entries {entries}, accepted {accepted}, folds {folds}, bytes {bytes}; until steady: \
             folds {all_folds}, runs {runs}, bytes {last_bytes}; measured {measured}, bytes \
             {measured_bytes}, looks {looks}"
        )
    }
}

/// Folds every file anew, once and until steady, measures it, and compares.
pub fn replay(bytes: &[u8]) -> Result<Totals, String> {
    let mut totals = Totals::default();
    for entry in Reader(bytes) {
        let entry = entry?;
        let Entry { room, file, answer, steady, measured } = &entry;
        let same = fold(file, *room) == *answer
            && fold_until_steady(file, *room) == *steady
            && measure(file) == *measured;
        if !same {
            return Err(format!("entry {} isn't what the fold gives", totals.entries));
        }
        totals.add(&entry);
    }
    Ok(totals)
}
