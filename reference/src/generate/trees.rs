//! Trees for files that are put together by hand.
//!
//! In the texts `v` is declared and read once, `a` and `b` are settled, `u` is unresolved, `w` is
//! written to, and a call `f()` or a node with `!` behind it is marked.

use crate::build::{Line, PLAIN_NAME, Tree, UNRESOLVED_NAME, declared_name, file_of};
use crate::record::*;

/// The names of the texts: v, a, b, u, w.
pub fn names() -> Vec<Name> {
    let written = Name { flags: name::MUTATED, ..PLAIN_NAME };
    vec![declared_name(1), PLAIN_NAME, PLAIN_NAME, UNRESOLVED_NAME, written]
}

/// A file whose nodes have positions from 10 on.
pub fn positioned(names: Vec<Name>, lines: &[Line]) -> RecordFile {
    let mut file = file_of(names, lines);
    for (place, node) in (10..).zip(&mut file.nodes) {
        node.position = place;
    }
    file
}

/// `let v = <initializer>; <tree>`.
pub fn searched(initializer: Tree, tree: Tree) -> [Line; 2] {
    [let_v(initializer), Line::Expression(tree)]
}

/// `let v = <initializer>`.
pub fn let_v(initializer: Tree) -> Line {
    Line::declare(statement::LET, 0, initializer)
}

pub fn v() -> Tree {
    Tree::name(0)
}

pub fn a() -> Tree {
    Tree::name(1)
}

pub fn b() -> Tree {
    Tree::name(2)
}

pub fn u() -> Tree {
    Tree::name(3)
}

/// The name `w` as a target.
pub fn w() -> Tree {
    Tree::leaf(kind::TARGET_NAME).labelled(4)
}

pub fn one() -> Tree {
    Tree::literal()
}

pub fn function() -> Tree {
    Tree::leaf(kind::FUNCTION)
}

pub fn f() -> Tree {
    call([a()]).marked()
}

pub fn node<const N: usize>(kind: u8, children: [Tree; N]) -> Tree {
    Tree::new(kind, children.into())
}

pub fn array<const N: usize>(items: [Tree; N]) -> Tree {
    node(kind::ARRAY, items)
}

pub fn call<const N: usize>(parts: [Tree; N]) -> Tree {
    node(kind::CALL, parts)
}

pub fn new<const N: usize>(parts: [Tree; N]) -> Tree {
    node(kind::NEW, parts)
}

pub fn member(object: Tree) -> Tree {
    node(kind::STATIC_MEMBER, [object])
}

pub fn keyed(object: Tree, key: Tree) -> Tree {
    node(kind::COMPUTED_MEMBER, [object, key])
}

pub fn spread(child: Tree) -> Tree {
    node(kind::SPREAD, [child])
}

pub fn property<const N: usize>(flags: u8, children: [Tree; N]) -> Tree {
    node(kind::PROPERTY, children).flagged(flags)
}

pub fn object<const N: usize>(items: [Tree; N]) -> Tree {
    node(kind::OBJECT, items)
}

pub fn assign(target: Tree, value: Tree) -> Tree {
    node(kind::ASSIGNMENT, [target, value])
}

pub fn compound(target: Tree, value: Tree) -> Tree {
    assign(target, value).flagged(flag::COMPOUND)
}

pub fn chain(child: Tree) -> Tree {
    node(kind::CHAIN, [child])
}

pub fn optional(tree: Tree) -> Tree {
    tree.flagged(flag::OPTIONAL)
}
