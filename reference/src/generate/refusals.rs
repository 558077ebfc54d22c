//! Files that the table refuses, row by row and in several ways each, with the near misses that it
//! accepts. The expected numbers are worked out by hand.

mod facts;
mod header;
mod nodes;
mod order;
mod script;
mod trees;

use super::case::{Case, MOST_ROOM};
use crate::build::{
    Line, PLAIN_NAME, Tree, UNRESOLVED_NAME, declared_name, empty_file, file_of, push_line,
};
use crate::record::*;

const PLAIN: u16 = 0;
const UNRESOLVED: u16 = 1;
/// A mutated name without a record.
const MUTATED: u16 = 2;
const SEARCHED: u16 = 3;
/// A recorded name with two reads and one write.
const WRITTEN: u16 = 4;

/// The names without a record.
fn unrecorded_names() -> Vec<Name> {
    let mutated = Name { flags: name::MUTATED, ..PLAIN_NAME };
    vec![PLAIN_NAME, UNRESOLVED_NAME, mutated]
}

/// An accepted file with something of everything that the rows speak of.
fn good_file() -> RecordFile {
    let written = Name { flags: name::RECORDED, scope: 1, reads: 2, writes: 1 };
    let mut file = empty_file([unrecorded_names(), vec![declared_name(1), written]].concat());
    file.scopes.push(Scope { parent: 0, flags: scope::FUNCTION });
    file.scopes.push(Scope { parent: 1, flags: 0 });
    file.frames.push(Frame { scope: 1, zero: 0, initialised: 40 });
    file.current_scope = 2;
    file.this_scope = 1;
    let lines = [
        Line::declare(statement::LET, SEARCHED, call(vec![])),
        Line::Declaration { kind: statement::VAR, declarators: vec![(NONE, None), (PLAIN, None)] },
        Line::Expression(assign(0, Tree::leaf(kind::TARGET_NAME).labelled(WRITTEN))),
        Line::Other,
        Line::Expression(Tree::new(kind::BINARY, vec![Tree::name(WRITTEN), Tree::name(SEARCHED)])),
    ];
    lines.iter().for_each(|line| push_line(&mut file, line));
    file
}

/// A marked call of the plain name.
fn call(arguments: Vec<Tree>) -> Tree {
    let children = [vec![Tree::name(PLAIN)], arguments].concat();
    Tree::new(kind::CALL, children).marked()
}

fn assign(flags: u8, target: Tree) -> Tree {
    Tree::new(kind::ASSIGNMENT, vec![target, Tree::literal()]).flagged(flags)
}

/// The cases so far.
struct Cases(Vec<Case>);

impl Cases {
    /// The good file after a change.
    fn change(&mut self, number: u32, what: &str, change: impl FnOnce(&mut RecordFile)) {
        let mut file = good_file();
        change(&mut file);
        self.0.push(Case::of_records(what, &file).expecting(number));
    }

    /// The good file's bytes after a change, in as much room as is ever offered.
    fn change_bytes(&mut self, number: u32, what: &str, change: impl FnOnce(&mut Vec<u8>)) {
        let mut file = good_file().to_bytes();
        change(&mut file);
        self.0.push(Case::new(what, file).in_room(MOST_ROOM).expecting(number));
    }

    /// The good file with the header's number at this offset replaced.
    fn header(&mut self, number: u32, what: &str, at: usize, value: u16) {
        self.change_bytes(number, what, |file| put(file, at, value));
    }

    /// A small file with one expression statement.
    fn tree(&mut self, number: u32, what: &str, tree: Tree) {
        self.changed_tree(number, what, tree, |_| ());
    }

    /// The same, as one of a long table.
    fn bulk_tree(&mut self, number: u32, what: &str, tree: Tree) {
        let file = file_of(unrecorded_names(), &[Line::Expression(tree)]);
        self.0.push(Case::of_records(what, &file).expecting(number).in_bulk());
    }

    /// A small file with one expression statement, its nodes changed.
    fn changed_tree(
        &mut self,
        number: u32,
        what: &str,
        tree: Tree,
        change: impl FnOnce(&mut [Node]),
    ) {
        let mut file = file_of(unrecorded_names(), &[Line::Expression(tree)]);
        change(&mut file.nodes);
        self.0.push(Case::of_records(what, &file).expecting(number));
    }
}

fn put(file: &mut [u8], at: usize, value: u16) {
    file[at..at + 2].copy_from_slice(&value.to_le_bytes());
}

/// Every case.
pub fn refusals() -> Vec<Case> {
    let mut cases = Cases(Vec::new());
    cases.change(0, "the good file", |_| ());
    header::letters_and_version(&mut cases);
    header::header_numbers(&mut cases);
    header::lengths(&mut cases);
    facts::name_facts(&mut cases);
    facts::scopes_and_frames(&mut cases);
    script::declarators_and_statements(&mut cases);
    nodes::nodes_by_kind(&mut cases);
    nodes::nodes_otherwise(&mut cases);
    nodes::properties(&mut cases);
    trees::unclosed_trees(&mut cases);
    trees::kinds_at_places(&mut cases);
    trees::optional_nodes(&mut cases);
    script::declared_twice(&mut cases);
    script::exceeded_counts(&mut cases);
    header::rooms(&mut cases);
    order::bad_in_two_ways(&mut cases);
    cases.0
}
