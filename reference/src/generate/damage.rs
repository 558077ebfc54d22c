//! Damaged copies of a file.

use super::case::Case;
use super::random_file::random_file;
use crate::random::Random;
use crate::record::HEADER_BYTES;

/// Numbers that stand on one side or the other of some limit.
const TELLING: &[u16] =
    &[0, 1, 2, 3, 15, 16, 17, 31, 255, 256, 257, 499, 500, 501, 511, 512, 3000, 3001, 65534, 65535];

/// The offsets of the header's counts, scopes and last number.
const HEADER_NUMBERS: &[usize] = &[4, 6, 8, 10, 12, 14, 16, 18, 20, 22];

/// A random file, damaged, now and then with too little room.
pub fn damaged_case(seed: u64, case: u64, size: usize) -> Case {
    let file = random_file(seed, case, size).to_bytes();
    let mut random = Random::new(seed.wrapping_add(1), case);
    if random.percent(5) {
        let whole = Case::new("too little room", file);
        let room = whole.room - random.between(1, 32);
        return whole.in_room(room);
    }
    Case::new("damaged", damaged(&mut random, &file))
}

/// The file with one or two damages.
fn damaged(random: &mut Random, file: &[u8]) -> Vec<u8> {
    let mut copy = file.to_vec();
    for _ in 0..random.pick(&[1, 1, 1, 2]) {
        damage(random, &mut copy);
    }
    copy
}

fn damage(random: &mut Random, file: &mut Vec<u8>) {
    if file.len() < HEADER_BYTES {
        return;
    }
    match random.below(9) {
        0 => flip_bit(random, file),
        1 => {
            let at = random.below(file.len());
            file[at] = random.pick(TELLING).to_le_bytes()[0];
        }
        2 => file.truncate(random.below(file.len())),
        3 => file.extend(vec![0; random.between(1, 13)]),
        4 => {
            let at = random.pick(HEADER_NUMBERS);
            let number = random.pick(TELLING);
            put(file, at, number);
        }
        5 => {
            let at = random.pick(HEADER_NUMBERS);
            let old = u16::from_le_bytes([file[at], file[at + 1]]);
            let number = if random.percent(50) { old.wrapping_add(1) } else { old.wrapping_sub(1) };
            put(file, at, number);
        }
        6 => {
            let at = random.below(file.len() / 2) * 2;
            let number = random.pick(TELLING);
            put(file, at, number);
        }
        7 => copy_word(random, file),
        _ => flip_low_bit(random, file),
    }
}

fn put(file: &mut [u8], at: usize, number: u16) {
    if at + 2 <= file.len() {
        file[at..at + 2].copy_from_slice(&number.to_le_bytes());
    }
}

fn flip_bit(random: &mut Random, file: &mut [u8]) {
    let at = random.below(file.len());
    file[at] ^= 1 << random.below(8);
}

/// A change of one of the bits that kinds and flags use, behind the header.
fn flip_low_bit(random: &mut Random, file: &mut [u8]) {
    let at = HEADER_BYTES + random.below(file.len() - HEADER_BYTES + 1);
    if let Some(byte) = file.get_mut(at) {
        *byte ^= 1 << random.below(3);
    }
}

/// Four bytes of the file take the place of four others.
fn copy_word(random: &mut Random, file: &mut [u8]) {
    let words = file.len() / 4;
    let (from, to) = (random.below(words) * 4, random.below(words) * 4);
    file.copy_within(from..from + 4, to);
}
