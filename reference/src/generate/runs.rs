//! Files for the repeat. How many runs it makes, how many declarators they fold and what the last
//! one gives is worked out by hand.
//!
//! In the texts `a` and `use` are settled, `u` is unresolved, a call is marked, and `[..]` before a
//! `=` is a pattern. The other names are declared, each read at most once.

mod kept;
mod tags;
mod taken;

use super::case::Case;
use crate::build::{Line, PLAIN_NAME, Tree, UNRESOLVED_NAME, declared_name, file_of};
use crate::record::*;

pub struct Repeat {
    pub text: &'static str,
    pub result_text: &'static str,
    pub runs: u32,
    pub folds: u32,
    pub file: RecordFile,
    pub result: RecordFile,
}

impl Repeat {
    /// In just enough room, and in a byte less.
    pub fn cases(&self) -> [Case; 2] {
        let case = || Case::of_records(self.text, &self.file);
        let less = case().room - 1;
        [case().expecting(0), case().in_room(less).expecting(11)]
    }

    /// File and result with this done to both.
    fn with(mut self, change: impl Fn(&mut RecordFile)) -> Self {
        change(&mut self.file);
        change(&mut self.result);
        self
    }
}

pub fn repeats() -> Vec<Repeat> {
    [
        taken::first_example(),
        taken::from_declarations(),
        taken::beside_others(),
        taken::let_past(),
        kept::at_once(),
        kept::empty_declarations(),
        kept::shorthands(),
        kept::by_rules(),
        tags::longer_between(),
    ]
    .into_iter()
    .flatten()
    .collect()
}

/// The cases of all files.
pub fn run_cases() -> impl Iterator<Item = Case> {
    repeats().into_iter().flat_map(|it| it.cases())
}

const V: u16 = 0;
const R: u16 = 1;
const W: u16 = 2;
const S: u16 = 3;
const P: u16 = 4;
const Q: u16 = 5;
const A: u16 = 6;
const USE: u16 = 7;
const U: u16 = 8;

/// A file with these names, from its lines and from those that the repeat leaves.
fn repeat(
    (runs, folds): (u32, u32),
    (text, result_text): (&'static str, &'static str),
    lines: &[Line],
    result: &[Line],
) -> Repeat {
    let mut names = vec![declared_name(1); usize::from(A)];
    names.extend([PLAIN_NAME, PLAIN_NAME, UNRESOLVED_NAME]);
    let file = |lines: &[Line]| file_of(names.clone(), lines);
    Repeat { text, result_text, runs, folds, file: file(lines), result: file(result) }
}

/// A file that is steady.
fn steady(text: &'static str, lines: &[Line]) -> Repeat {
    repeat((1, 0), (text, "the same"), lines, lines)
}

/// The declared name of this number is read here.
fn read(name: u16) -> Tree {
    Tree::name(name).at(position_of(name))
}

/// A tree in the place where this name was read.
fn placed(name: u16, tree: Tree) -> Tree {
    tree.at(position_of(name))
}

fn position_of(name: u16) -> u32 {
    100 + u32::from(name)
}

fn one() -> Tree {
    Tree::literal().labelled(1)
}

fn f() -> Tree {
    call(A, [])
}

fn call<const N: usize>(callee: u16, arguments: [Tree; N]) -> Tree {
    let callee = [Tree::name(callee)].into_iter();
    Tree::new(kind::CALL, callee.chain(arguments).collect()).marked()
}

fn array<const N: usize>(items: [Tree; N]) -> Tree {
    Tree::new(kind::ARRAY, items.into())
}

fn member(object: Tree) -> Tree {
    Tree::new(kind::STATIC_MEMBER, vec![object])
}

fn declare<const N: usize>(declarators: [(u16, Tree); N]) -> Line {
    let declarators = declarators.map(|(name, init)| (name, Some(init))).into();
    Line::Declaration { kind: statement::LET, declarators }
}

/// `let v = f()`.
fn let_v() -> Line {
    declare([(V, f())])
}
