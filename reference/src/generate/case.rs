//! A file with the room it is folded in, and the number that is expected where it was worked out by
//! hand.

use crate::build::room_for;
use crate::record::{HEADER_BYTES, RecordFile, read_header};

/// More than any file needs, and no case has more.
pub const MOST_ROOM: usize = 65536;

pub struct Case {
    pub what: String,
    pub file: Vec<u8>,
    pub room: usize,
    /// 0 means that the file is folded.
    pub expected: Option<u32>,
    /// Long, or one of a long table: not kept as an answer, or not always.
    pub bulk: bool,
}

impl Case {
    /// A case with just enough room.
    pub fn new(what: impl Into<String>, file: Vec<u8>) -> Self {
        let room = room_by_header(&file);
        Self { what: what.into(), file, room, expected: None, bulk: false }
    }

    pub fn of_records(what: impl Into<String>, records: &RecordFile) -> Self {
        Self::new(what, records.to_bytes())
    }

    pub fn expecting(mut self, number: u32) -> Self {
        self.expected = Some(number);
        self
    }

    pub fn in_bulk(mut self) -> Self {
        self.bulk = true;
        self
    }

    pub fn in_room(mut self, room: usize) -> Self {
        self.room = room;
        self
    }
}

/// The room that row 11 wants; no more than is ever offered, whatever the header says.
fn room_by_header(file: &[u8]) -> usize {
    let has_header = file.len() >= HEADER_BYTES;
    let declarators = if has_header { read_header(file).declarators } else { 0 };
    room_for(file, usize::from(declarators)).min(MOST_ROOM)
}
