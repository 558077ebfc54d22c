//! Files that are folded until steady: how many runs that takes, and what is written.

mod kept;
mod made;

use kept::{kept, script};
use made::{LITERAL, NAME, file, record};
use wsf::{Folded, Refusal, Steady, fold, fold_until_steady, room_for};

/// How many declarators of each of the twelve scripts are folded, in how many runs.
const SCRIPTS: [(usize, usize); 12] = [
    (1, 2),
    (0, 1),
    (0, 1),
    (0, 1),
    (1, 2),
    (0, 1),
    (1, 2),
    (0, 1),
    (1, 2),
    (0, 2),
    (2, 2),
    (3, 2),
];

/// What the output holds before a call.
const BEFORE: u8 = 0xa5;

fn check(file: &[u8], result: &[u8], (folds, runs): (usize, usize)) {
    let wanted = Steady { length: result.len(), folds, runs };
    let room = room_for(file);
    for room in [room, room + 1, wsf::MOST_ROOM] {
        check_in(room, file, result, wanted);
    }
    let mut output = vec![BEFORE; room - 1];
    assert_eq!(fold_until_steady(file, &mut output), Err(Refusal::Room));
    assert!(output.iter().all(|&byte| byte == BEFORE));
    check_in(room, result, result, Steady { folds: 0, runs: 1, ..wanted });
}

fn check_in(room: usize, file: &[u8], result: &[u8], wanted: Steady) {
    let mut output = vec![BEFORE; room];
    assert_eq!(fold_until_steady(file, &mut output), Ok(wanted));
    assert_eq!(&output[..result.len()], result);
    assert!(output[result.len()..].iter().all(|&byte| byte == BEFORE));
}

#[test]
fn the_scripts_are_steady_after_one_fold() {
    for (number, counts) in (1..).zip(SCRIPTS) {
        check(&script(number), &kept(&format!("{number:02}-result")), counts);
    }
}

/// `const v=f(); const r=1, p=use(v,r)`: the first run folds `r`, the second `v`.
#[test]
fn a_second_run_folds_more() {
    let (file, result) = (kept("steady"), kept("steady-result"));
    check(&file, &result, (2, 3));
    let mut output = vec![BEFORE; room_for(&file)];
    // a name's node and its declarator are gone
    assert_eq!(fold(&file, &mut output), Ok(Folded { length: file.len() - 16, folds: 1 }));
}

/// `let ; 1` becomes `1`: no declarator, no fold, and as many runs as there can be.
#[test]
fn an_empty_declaration_goes() {
    let (declaration, expression) = ([1, 0, 0, 0], [5, 0, 0, 0]);
    let nodes = [record(LITERAL, 0, 6)];
    let before = file(0, &nodes, &[], &[declaration, expression]);
    check(&before, &file(0, &nodes, &[], &[expression]), (0, 2));
}

const THIS: u8 = 5;
const MEMBER: u8 = 10;
const ARRAY: u8 = 21;
const TAGGED: u8 = 24;
const SEQUENCE: u8 = 28;

fn labelled(low: u8, high: u8, mut record: [u8; 12]) -> [u8; 12] {
    [record[2], record[3]] = [low, high];
    record
}

/// ``let v=1; let r=this.x, [..]=[v,r``]`` becomes ``let [..]=[1,(0,this.x)``]``. The result of the
/// first run has 8 bytes more than the file, the last one 12 less: what stands behind it isn't of
/// the first.
#[test]
fn a_longer_intermediate_result_leaves_nothing_behind() {
    let (v, r, pattern) = ([0, 0, 1, 0], [1, 0, 1, 0], [255, 255, 1, 0]);
    let before = [
        record(LITERAL, 0, 6),
        record(MEMBER, 1, 15),
        record(THIS, 0, 15),
        record(ARRAY, 2, 28),
        record(NAME, 0, 29),
        record(TAGGED, 1, 31),
        labelled(1, 0, record(NAME, 0, 31)),
    ];
    let after = [
        record(ARRAY, 2, 28),
        record(LITERAL, 0, 29),
        record(TAGGED, 1, 31),
        record(SEQUENCE, 2, 31),
        labelled(255, 255, record(LITERAL, 0, 31)),
        record(MEMBER, 1, 31),
        record(THIS, 0, 15),
    ];
    let before = file(2, &before, &[v, r, pattern], &[[1, 0, 1, 0], [1, 0, 2, 0]]);
    let after = file(2, &after, &[pattern], &[[1, 0, 1, 0]]);
    let mut output = vec![BEFORE; room_for(&before)];
    assert_eq!(fold(&before, &mut output), Ok(Folded { length: before.len() + 8, folds: 1 }));
    assert_eq!(after.len(), before.len() - 12);
    check(&before, &after, (2, 3));
}
