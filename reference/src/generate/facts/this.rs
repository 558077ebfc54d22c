//! `let v = f(); this.x = v`: the fold happens if `this` doesn't block.

use super::Table;
use crate::build::{Line, PLAIN_NAME, Tree, declared_name, empty_file, push_line};
use crate::record::*;

/// The `this` scope, three frames, the target.
pub const TABLE: Table<5> = Table {
    what: "this",
    factors: [3, 9, 9, 9, 4],
    file,
    telling: &[
        // A later frame of the `this` scope, initialised later or never.
        [0, 0, 3, 0, 0],
        [0, 0, 4, 0, 0],
        // A frame of the other scope behind it, initialised in time.
        [0, 2, 5, 0, 0],
        [0, 3, 6, 0, 0],
        // The one in time stands before the last of the `this` scope.
        [0, 4, 4, 0, 0],
        [0, 4, 4, 1, 0],
        // No frame; blocked in each target.
        [1, 8, 0, 0, 0],
        [0, 8, 0, 0, 1],
        [0, 8, 0, 0, 2],
        [0, 8, 0, 0, 3],
    ],
};

const SEARCHED: u16 = 0;
const SETTLED: u16 = 1;
/// Where `this` stands.
const POSITION: u32 = 11;

/// The `this` scope, by value.
const SCOPES: [u16; 3] = [1, NONE, 0];

fn file(choice: [usize; 5]) -> RecordFile {
    let [scope, first, second, third, target] = choice;
    let mut file = empty_file(vec![declared_name(1), PLAIN_NAME]);
    file.scopes.push(Scope { parent: 0, flags: scope::FUNCTION });
    file.this_scope = SCOPES[scope];
    // The first factor's first value is a frame, that of the others none.
    let values = [(first + 1) % 9, second, third];
    file.frames = values.into_iter().filter_map(frame).collect();
    let effect = Tree::leaf(kind::OTHER).marked();
    push_line(&mut file, &Line::declare(statement::LET, SEARCHED, effect));
    let assignment = Tree::new(kind::ASSIGNMENT, vec![target_of(target), Tree::name(SEARCHED)]);
    push_line(&mut file, &Line::Expression(assignment));
    file
}

/// No frame, or one of either scope, initialised before `this`, there, behind it, or never.
fn frame(value: usize) -> Option<Frame> {
    let number = value.checked_sub(1)?;
    let times = [POSITION - 1, POSITION, POSITION + 1, NEVER];
    let scope = if number < 4 { 1 } else { 0 };
    Some(Frame { scope, zero: 0, initialised: times[number % 4] })
}

/// The object of a member of each kind, or the key.
fn target_of(value: usize) -> Tree {
    let this = Tree::leaf(kind::THIS).at(POSITION);
    match value {
        0 => Tree::new(kind::STATIC_MEMBER, vec![this]),
        1 => Tree::new(kind::PRIVATE_MEMBER, vec![this]),
        2 => Tree::new(kind::COMPUTED_MEMBER, vec![this, Tree::literal()]),
        _ => Tree::new(kind::COMPUTED_MEMBER, vec![Tree::name(SETTLED), this]),
    }
}
