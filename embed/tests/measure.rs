//! Files that are measured: the length of the result and the looks, worked out by hand, and the fold
//! that gives this result.

mod kept;
mod made;

use kept::{kept, script};
use made::{LITERAL, NAME, file, record};
use wsf::{MOST_ROOM, Measured, Refusal, fold, fold_until_steady, measure, room_for};

/// Measuring gives these numbers. The fold gives a result of this length in just enough room and in
/// the most; a byte less is too little for it. The looks keep to their bound.
fn check(file: &[u8], wanted: Measured) {
    assert_eq!(measure(file), Ok(wanted));
    let room = room_for(file);
    for room in [room, MOST_ROOM] {
        let folded = fold(file, &mut vec![0; room]).expect("what is measured is folded");
        assert_eq!(folded.length, wanted.length);
    }
    assert_eq!(fold(file, &mut vec![0; room - 1]), Err(Refusal::Room));
    assert!(wanted.looks <= most_looks(file));
}

/// (T + 2 D) x 3,000, by the header's counts.
fn most_looks(file: &[u8]) -> usize {
    let count = |at: usize| usize::from(u16::from_le_bytes([file[at], file[at + 1]]));
    let (declarators, statements) = (count(14), count(16));
    (statements + 2 * declarators) * 3000
}

/// Of each script the length of the result, and the expressions that are entered.
const SCRIPTS: [(usize, &[&str]); 12] = [
    (92, &["use(n)", "use", "n"]),
    (112, &[]),
    (124, &["use(m)", "use", "m"]),
    (136, &["a&&v", "a"]),
    (104, &["a&&v", "a", "v"]),
    (148, &["the chain", "o?.(v)", "o"]),
    (116, &["o(v)", "o", "v"]),
    (124, &["v(1)"]),
    (116, &["v``", "v"]),
    (160, &["({g,k:v})", "g"]),
    (164, &["g()", "g", "use(a,v)", "use", "a", "v", "use(a,g())", "use", "a"]),
    (140, &["v", "y", "use(z)", "use", "z"]),
];

#[test]
fn the_scripts_are_measured() {
    for (number, (length, entered)) in (1..).zip(SCRIPTS) {
        check(&script(number), Measured { length, looks: entered.len() });
        assert_eq!(kept(&format!("{number:02}-result")).len(), length);
    }
}

/// The kept tag of script 9, `(0,a.b)`, has two nodes more than `a.b`.
#[test]
fn a_result_is_longer_than_its_file() {
    let file = script(9);
    check(&file, Measured { length: file.len() + 4, looks: 2 });
}

/// `const v=f(); const r=1, p=use(v,r)`: entered are `1` for `v`; `use(v,r)`, `use`, `v` and `r` for
/// `r`. Measured is one run, which folds `r`; the repeat folds `v` too.
#[test]
fn one_run_is_measured() {
    let file = kept("steady");
    let wanted = Measured { length: file.len() - 16, looks: 5 };
    check(&file, wanted);
    let steady = fold_until_steady(&file, &mut vec![0; room_for(&file)]);
    assert_eq!(steady.map(|it| it.length), Ok(kept("steady-result").len()));
    assert_ne!(kept("steady-result").len(), wanted.length);
}

const THIS: u8 = 5;
const MEMBER: u8 = 10;
const ARRAY: u8 = 21;
const TAGGED: u8 = 24;

/// ``let v=this.x; let r=1, p=[v``,r]``. The measured run folds `r`; the next one folds `v`, and
/// ``(0,this.x)`` is longer than what goes.
#[test]
fn the_repeat_may_give_more() {
    let nodes = [
        record(MEMBER, 1, 6),
        record(THIS, 0, 6),
        record(LITERAL, 0, 20),
        record(ARRAY, 2, 25),
        record(TAGGED, 1, 26),
        record(NAME, 0, 26),
        [NAME, 0, 1, 0, 0, 0, 0, 0, 30, 0, 0, 0],
    ];
    let declarators = [[0, 0, 1, 0], [1, 0, 1, 0], [2, 0, 1, 0]];
    let before = file(3, &nodes, &declarators, &[[1, 0, 1, 0], [1, 0, 2, 0]]);
    let wanted = Measured { length: before.len() - 16, looks: 5 };
    check(&before, wanted);
    let steady = fold_until_steady(&before, &mut vec![0; room_for(&before)]);
    assert_eq!(steady.map(|it| it.length), Ok(wanted.length + 4));
}

/// So many names are declared, and so many literals stand before their reads: the file has all the
/// nodes that it may have.
const DECLARED: u8 = 255;
const LITERALS: u16 = 1979;

/// `const v0=1, v1=1, ..; [1, 1, .., v0, v1, ..]`. Each initializer but the first is entered for the
/// name before it. Then the array is entered for each name, the last first, with the literals and
/// the names up to this one; those behind it are literals by then.
#[test]
fn many_looks() {
    let (declared, literals) = (usize::from(DECLARED), usize::from(LITERALS));
    let [low, high] = (LITERALS + u16::from(DECLARED)).to_le_bytes();
    let mut nodes = vec![record(LITERAL, 0, 0); declared];
    nodes.push([ARRAY, 0, 0, 0, low, high, 0, 0, 0, 0, 0, 0]);
    nodes.extend(vec![record(LITERAL, 0, 0); literals]);
    nodes.extend((0..DECLARED).map(|name| [NAME, 0, name, 0, 0, 0, 0, 0, 0, 0, 0, 0]));
    let declarators: Vec<[u8; 4]> = (0..DECLARED).map(|name| [name, 0, 1, 0]).collect();
    let before = file(declared, &nodes, &declarators, &[[2, 0, DECLARED, 0], [5, 0, 0, 0]]);
    // gone are a node and a declarator for each name, and a statement
    let length = before.len() - declared * (12 + 4) - 4;
    let looks = declared - 1 + declared * (1 + literals) + (1..=declared).sum::<usize>();
    assert_eq!(looks, 537_794);
    check(&before, Measured { length, looks });
}
