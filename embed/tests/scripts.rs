//! The twelve scripts of `reference/scripts`, with their results.

mod kept;

use kept::{kept, script};
use wsf::{Folded, Refusal, fold, room_for};

/// How many declarators of each script are folded.
const FOLDS: [usize; 12] = [1, 0, 0, 0, 1, 0, 1, 0, 1, 0, 2, 3];

/// What the output holds before a fold.
const BEFORE: u8 = 0xa5;

fn each_script(check: impl Fn(&[u8], &[u8], usize)) {
    for (number, folds) in (1..).zip(FOLDS) {
        check(&script(number), &kept(&format!("{number:02}-result")), folds);
    }
}

#[test]
fn the_scripts_fold_to_their_results() {
    each_script(|file, result, folds| {
        let mut output = vec![BEFORE; room_for(file)];
        assert_eq!(fold(file, &mut output), Ok(Folded { length: result.len(), folds }));
        assert_eq!(&output[..result.len()], result);
    });
}

#[test]
fn more_room_changes_nothing() {
    each_script(|file, result, folds| {
        let mut output = vec![BEFORE; wsf::MOST_ROOM];
        assert_eq!(fold(file, &mut output), Ok(Folded { length: result.len(), folds }));
        assert_eq!(&output[..result.len()], result);
        assert!(output[result.len()..].iter().all(|&byte| byte == BEFORE));
    });
}

#[test]
fn a_byte_less_of_room_is_refused() {
    each_script(|file, _, _| {
        let mut output = vec![BEFORE; room_for(file) - 1];
        assert_eq!(fold(file, &mut output), Err(Refusal::Room));
        assert!(output.iter().all(|&byte| byte == BEFORE));
    });
}

#[test]
fn threads_fold_at_the_same_time() {
    std::thread::scope(|scope| {
        for _ in 0..4 {
            scope.spawn(|| (0..500).for_each(|_| the_scripts_fold_to_their_results()));
        }
    });
}
