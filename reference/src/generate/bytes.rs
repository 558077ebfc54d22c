//! The scripts cut short, drawn out, and with one byte changed to every other value.

use super::case::Case;
use crate::scripts::scripts;

/// Longer than any record.
const MOST_ADDED: usize = 13;

/// Every prefix of a script, the whole one too, and the script with bytes added.
pub fn lengths(put: &mut dyn FnMut(Case)) {
    for script in scripts() {
        let mut file = script.file.to_bytes();
        (0..=file.len()).for_each(|length| put(Case::new("a prefix", file[..length].to_vec())));
        for _ in 0..MOST_ADDED {
            file.push(0);
            put(Case::new("bytes added", file.clone()));
        }
    }
}

/// Each byte of a script with each other value.
pub fn changed_bytes(put: &mut dyn FnMut(Case)) {
    for script in scripts() {
        let file = script.file.to_bytes();
        for at in 0..file.len() {
            for value in (0..=u8::MAX).filter(|&value| value != file[at]) {
                let mut changed = file.clone();
                changed[at] = value;
                put(Case::new("a byte changed", changed));
            }
        }
    }
}
