//! Each row of the table: a script with one thing changed is refused with the row's number, by every
//! call, and the output stays as it was. Measuring has no output, and row 11 doesn't refuse there.

mod kept;

use kept::script;
use wsf::{Refusal, fold, fold_until_steady, measure, room_for};

/// A count of the header: names, scopes, frames, nodes, declarators, statements.
fn count(file: &[u8], part: usize) -> usize {
    usize::from(u16::from_le_bytes([file[6 + 2 * part], file[7 + 2 * part]]))
}

/// Where a part begins.
fn start(file: &[u8], part: usize) -> usize {
    let lengths = [12, 4, 8, 12, 4, 4];
    24 + (0..part).map(|before| lengths[before] * count(file, before)).sum::<usize>()
}

const NAMES: usize = 0;
const NODES: usize = 3;
const DECLARATORS: usize = 4;
const STATEMENTS: usize = 5;

fn check(file: &[u8], room: usize, row: Refusal) {
    let before: Vec<u8> = (0..room).map(|at| u8::try_from(at % 251).expect("it fits")).collect();
    let mut output = before.clone();
    assert_eq!(fold(file, &mut output), Err(row));
    assert_eq!(fold_until_steady(file, &mut output), Err(row));
    assert_eq!(output, before, "{row}");
    let measured = if row == Refusal::Room { None } else { Some(row) };
    assert_eq!(measure(file).err(), measured);
}

/// The script with the byte at the offset changed.
fn check_changed(number: usize, at: impl Fn(&[u8]) -> usize, byte: u8, row: Refusal) {
    let mut file = script(number);
    let at = at(&file);
    file[at] = byte;
    check(&file, room_for(&file), row);
    // a row before the last is returned whatever the room is
    check(&file, 0, row);
}

#[test]
fn no_record_file() {
    check(&[], 0, Refusal::NoRecordFile);
    check(&script(1)[..23], 500, Refusal::NoRecordFile);
    check_changed(1, |_| 2, b'G', Refusal::NoRecordFile);
}

#[test]
fn header_and_length() {
    check_changed(1, |_| 4, 2, Refusal::Version);
    check_changed(1, |_| 3, 16, Refusal::Header);
    let mut file = script(1);
    file.push(0);
    check(&file, 500, Refusal::Length);
    check(&script(1)[..111], 500, Refusal::Length);
}

#[test]
fn records() {
    check_changed(1, |file| start(file, NAMES) + 1, 2, Refusal::Facts);
    check_changed(1, |file| start(file, DECLARATORS) + 2, 2, Refusal::Statements);
    check_changed(1, |file| start(file, STATEMENTS), 7, Refusal::Statements);
    check_changed(1, |file| start(file, NODES), 31, Refusal::Node);
}

#[test]
fn trees_and_uses() {
    // the callee becomes an elision, which stands in arrays alone
    check_changed(1, |file| start(file, NODES) + 24, 27, Refusal::Trees);
    check_changed(11, |file| start(file, DECLARATORS) + 4, 0, Refusal::DeclaredTwice);
    // the name's facts say that nothing reads it
    check_changed(1, |file| start(file, NAMES) + 4, 0, Refusal::Uses);
}

#[test]
fn room() {
    let file = script(1);
    check(&file, room_for(&file) - 1, Refusal::Room);
    check(&file, 0, Refusal::Room);
}

#[test]
fn numbers_and_words() {
    for (number, row) in (1..).zip(Refusal::ALL) {
        assert_eq!(u64::from(row.number()), number);
        assert_eq!(Refusal::of_number(number), Some(row));
        assert!(row.to_string().starts_with(&format!("refused {number}: ")));
    }
    assert_eq!(Refusal::of_number(0), None);
    assert_eq!(Refusal::of_number(12), None);
}
