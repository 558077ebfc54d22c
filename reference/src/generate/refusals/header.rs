//! Rows 1 to 4: letters, version, the numbers of the header, the length. Row 11: the room.

use super::{Cases, good_file, put};
use crate::build::{Line, empty_file, push_line};
use crate::generate::case::{Case, MOST_ROOM};

/// Rows 1 and 2.
pub fn letters_and_version(cases: &mut Cases) {
    cases.change_bytes(1, "no bytes", Vec::clear);
    cases.change_bytes(1, "one byte", |file| file.truncate(1));
    cases.change_bytes(1, "23 bytes", |file| file.truncate(23));
    cases.change_bytes(1, "first letter", |file| file[0] = b'w');
    cases.change_bytes(1, "second letter", |file| file[1] = b'F');
    cases.change_bytes(1, "third letter", |file| file[2] = 0);
    cases.change_bytes(4, "24 bytes", |file| file.truncate(24));
    cases.change_bytes(4, "longer than any file", |file| file.resize(65536, 0));
    cases.change_bytes(1, "longer than any file, not a script", |file| {
        file.resize(65536, 0);
        file[0] = 0;
    });
    for version in [0, 2, 256, 257, 65535] {
        cases.header(2, &format!("version {version}"), 4, version);
    }
    cases.change_bytes(2, "24 bytes, version 3", |file| {
        file.truncate(24);
        put(file, 4, 3);
    });
}

/// Row 3, with the near misses that fail row 4 instead.
pub fn header_numbers(cases: &mut Cases) {
    let numbers = [
        ("256 names", 6, 256, 4),
        ("257 names", 6, 257, 3),
        ("65535 names", 6, 65535, 3),
        ("no scope", 8, 0, 3),
        ("256 scopes", 8, 256, 4),
        ("257 scopes", 8, 257, 3),
        ("16 frames", 10, 16, 4),
        ("17 frames", 10, 17, 3),
        ("2994 nodes", 12, 2994, 4),
        ("2995 nodes", 12, 2995, 3),
        ("65535 nodes", 12, 65535, 3),
        ("500 declarators", 14, 500, 4),
        ("501 declarators", 14, 501, 3),
        ("32768 declarators", 14, 32768, 3),
        ("no statement", 16, 0, 3),
        ("500 statements", 16, 500, 4),
        ("501 statements", 16, 501, 3),
        ("current scope 3", 18, 3, 3),
        ("current scope none", 18, 65535, 3),
        ("`this` scope 3", 20, 3, 3),
        ("`this` scope 65534", 20, 65534, 3),
        ("`this` scope none", 20, 65535, 0),
        ("last number 1", 22, 1, 3),
        ("last number 256", 22, 256, 3),
    ];
    for (what, at, value, number) in numbers {
        cases.header(number, what, at, value);
    }
    for bit in 0..8 {
        let number = if bit < 4 { 0 } else { 3 };
        cases.change_bytes(number, &format!("option bit {bit}"), |file| file[3] = 1 << bit);
    }
    cases.change_bytes(3, "65534 nodes and 500 declarators", |file| {
        put(file, 12, 65534);
        put(file, 14, 500);
    });
}

/// Row 4.
pub fn lengths(cases: &mut Cases) {
    cases.change_bytes(4, "a byte too few", |file| file.truncate(file.len() - 1));
    cases.change_bytes(4, "a byte too many", |file| file.push(0));
    cases.change_bytes(4, "twelve bytes too many", |file| file.extend([0; 12]));
    cases.header(4, "a name more", 6, 6);
    cases.header(4, "a name less", 6, 4);
    cases.header(4, "a frame more", 10, 2);
    cases.header(4, "a node less", 12, 7);
    cases.header(4, "a declarator more", 14, 4);
    cases.header(4, "a statement less", 16, 4);
}

/// Row 11.
pub fn rooms(cases: &mut Cases) {
    let file = good_file().to_bytes();
    let enough = file.len() + 24;
    for (room, number) in
        [(enough, 0), (enough + 1, 0), (enough - 1, 11), (file.len(), 11), (0, 11), (MOST_ROOM, 0)]
    {
        let what = format!("room {room}");
        cases.0.push(Case::new(what, file.clone()).in_room(room).expecting(number));
    }
    let mut plain = empty_file(vec![]);
    push_line(&mut plain, &Line::Other);
    let plain = plain.to_bytes();
    for (room, number) in [(plain.len(), 0), (plain.len() - 1, 11)] {
        let what = format!("no declarator, room {room}");
        cases.0.push(Case::new(what, plain.clone()).in_room(room).expecting(number));
    }
}
