//! Files that are bad in two ways.

use super::{Cases, PLAIN, WRITTEN, good_file, put};
use crate::generate::case::{Case, MOST_ROOM};
use crate::record::*;

/// A fault of each row that leaves the other rows' faults possible.
fn fault(row: u32, records: &mut RecordFile) {
    match row {
        5 => records.scopes[1].flags = 4,
        6 => records.declarators[0].initializer = 2,
        7 => records.nodes[0].zero = 1,
        8 => records.statements[3].kind = statement::EXPRESSION,
        9 => records.declarators[1].name = PLAIN,
        10 => records.names[usize::from(WRITTEN)].writes = 0,
        _ => (),
    }
}

fn fault_in_bytes(row: u32, file: &mut Vec<u8>) {
    match row {
        1 => file[0] = 0,
        2 => put(file, 4, 2),
        3 => file[3] = 16,
        4 => file.push(0),
        _ => (),
    }
}

/// Every pair of rows: the lower number is returned.
pub fn bad_in_two_ways(cases: &mut Cases) {
    for first in 1..=11 {
        for second in first + 1..=11 {
            let mut records = good_file();
            fault(first, &mut records);
            fault(second, &mut records);
            let mut file = records.to_bytes();
            fault_in_bytes(first, &mut file);
            fault_in_bytes(second, &mut file);
            let room = if second == 11 { 0 } else { MOST_ROOM };
            let what = format!("rows {first} and {second}");
            cases.0.push(Case::new(what, file).in_room(room).expecting(first));
        }
    }
}
