//! `let v = 1;` and a tree of some 2,990 nodes, as deep as its kind allows, with `v` within, folded
//! and measured on a thread of 2 MB, which is what Rust gives a thread unless told otherwise.

mod made;

use made::{LITERAL, NAME, file, record};
use wsf::{Folded, Measured, Steady, fold, fold_until_steady, measure, room_for};

const STACK_BYTES: usize = 2 << 20;
const NODES: usize = 2990;

const ASSIGNMENT: u8 = 20;

/// A level's nodes before the next level, each a kind and its children.
type Level = &'static [(u8, u8)];

/// One node a level: await, yield, import, unary, static and private member, callee, callee of new,
/// private in, array, template, tag. Then the right side of a binary and of a logical operator, the
/// second branch, the value of an assignment, the last of a sequence, an argument, the value of a
/// computed member's assignment, and an array behind a `yield`.
const LEVELS: [Level; 20] = [
    &[(6, 1)],
    &[(7, 1)],
    &[(8, 1)],
    &[(9, 1)],
    &[(10, 1)],
    &[(11, 1)],
    &[(14, 1)],
    &[(15, 1)],
    &[(18, 1)],
    &[(21, 1)],
    &[(23, 1)],
    &[(24, 1)],
    &[(16, 2), (1, 0)],
    &[(17, 2), (1, 0)],
    &[(19, 3), (1, 0), (1, 0)],
    &[(ASSIGNMENT, 2), (30, 0)],
    &[(28, 2), (1, 0)],
    &[(14, 2), (1, 0)],
    &[(ASSIGNMENT, 2), (12, 2), (1, 0), (1, 0)],
    &[(21, 2), (7, 0)],
];

/// As many levels as fit, with this node within the last.
fn nest(level: Level, within: [u8; 12]) -> Vec<[u8; 12]> {
    let before: Vec<_> = level.iter().map(|&(kind, children)| record(kind, children, 7)).collect();
    let mut nodes = before.repeat(NODES / level.len());
    nodes.push(within);
    nodes
}

/// The nodes of such a nest that are entered: of an assignment the target isn't.
fn looks(level: Level) -> usize {
    let entered = if level[0].0 == ASSIGNMENT { 1 } else { level.len() };
    NODES / level.len() * entered + 1
}

const BEFORE: u8 = 0xa5;

fn check(level: Level) {
    let (declaration, expression) = ([1, 0, 1, 0], [5, 0, 0, 0]);
    let mut nodes = vec![record(LITERAL, 0, 3)];
    nodes.extend(nest(level, record(NAME, 0, 9)));
    let before = file(1, &nodes, &[[0, 0, 1, 0]], &[declaration, expression]);
    let after = file(1, &nest(level, record(LITERAL, 0, 9)), &[], &[expression]);
    let mut output = vec![BEFORE; room_for(&before)];
    let folded = fold(&before, &mut output);
    assert_eq!(folded, Ok(Folded { length: after.len(), folds: 1 }), "{level:?}");
    check_output(&output, &after, level);
    output.fill(BEFORE);
    let steady = fold_until_steady(&before, &mut output);
    assert_eq!(steady, Ok(Steady { length: after.len(), folds: 1, runs: 2 }), "{level:?}");
    check_output(&output, &after, level);
    let measured = Measured { length: after.len(), looks: looks(level) };
    assert_eq!(measure(&before), Ok(measured), "{level:?}");
}

fn check_output(output: &[u8], result: &[u8], level: Level) {
    assert!(output[..result.len()] == *result, "{level:?}");
    assert!(output[result.len()..].iter().all(|&byte| byte == BEFORE), "{level:?}");
}

#[test]
fn deep_nests_fold_on_a_thread_of_2_mb() {
    for level in LEVELS {
        let thread = std::thread::Builder::new().stack_size(STACK_BYTES);
        thread.spawn(move || check(level)).expect("a thread starts").join().expect("it folds");
    }
}
