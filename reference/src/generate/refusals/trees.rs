//! Row 8: trees that don't close, and children where their kind can't stand.

use super::nodes::{as_expression, tree_of_kind};
use super::{Cases, MUTATED, PLAIN, assign, call};
use crate::build::{Line, Tree, push_line};
use crate::record::*;

/// Row 8: too few or too many nodes.
pub fn unclosed_trees(cases: &mut Cases) {
    cases.change(8, "a node too many", |file| {
        file.nodes.push(file.nodes[4]);
    });
    cases.change(8, "a node too few", |file| {
        file.nodes.pop();
    });
    cases.change(8, "no node", |file| file.nodes.clear());
    cases.change(8, "an initializer too many", |file| file.declarators[2].initializer = 1);
    cases.change(8, "an initializer too few", |file| file.declarators[0].initializer = 0);
    cases.change(8, "a last initializer without nodes", |file| {
        let line = Line::Declaration { kind: statement::VAR, declarators: vec![(MUTATED, None)] };
        push_line(file, &line);
        file.declarators[3].initializer = 1;
    });
    cases.change(8, "an expression for another statement", |file| file.statements[2].kind = 6);
    for children in [0, 2, 65535] {
        let array = Tree::new(kind::ARRAY, vec![Tree::literal()]);
        let what = format!("an array of one that says {children}");
        cases.changed_tree(8, &what, array, |nodes| nodes[0].children = children);
    }
}

/// What may stand at a place.
#[derive(Clone, Copy)]
enum Takes {
    Expressions,
    Arguments,
    Items,
    /// These kinds alone.
    Only(&'static [u8]),
}

impl Takes {
    fn takes(self, of: u8) -> bool {
        let expression = of <= 24 || of == 28;
        match self {
            Self::Expressions => expression,
            Self::Arguments => expression || of == 25,
            Self::Items => expression || of == 25 || of == 27,
            Self::Only(kinds) => kinds.contains(&of),
        }
    }
}

/// A tree, the number of one of its children, and what may stand there.
type Place = (Tree, usize, Takes);

fn places() -> Vec<Place> {
    let e = Tree::literal;
    let two = |of: u8| Tree::new(of, vec![e(), e()]);
    let property =
        |flags: u8, children: usize| Tree::new(kind::PROPERTY, vec![e(); children]).flagged(flags);
    let mut out = vec![
        (tree_of_kind(kind::CHAIN), 0, Takes::Only(&[10, 11, 12, 14])),
        (tree_of_kind(kind::ASSIGNMENT), 0, Takes::Only(&[10, 11, 12, 29, 30])),
        (tree_of_kind(kind::ASSIGNMENT), 1, Takes::Expressions),
        (two(kind::CALL), 1, Takes::Arguments),
        (two(kind::NEW), 1, Takes::Arguments),
        (two(kind::ARRAY), 1, Takes::Items),
        (Tree::new(kind::OBJECT, vec![e()]), 0, Takes::Only(&[25, 26])),
        (tree_of_kind(kind::SPREAD), 0, Takes::Expressions),
        (property(flag::SHORTHAND, 1), 0, Takes::Only(&[4])),
        (property(0, 1), 0, Takes::Expressions),
        (property(flag::COMPUTED, 2), 0, Takes::Expressions),
        (property(flag::COMPUTED, 2), 1, Takes::Expressions),
        (property(flag::COMPUTED | flag::PROTO, 1), 0, Takes::Expressions),
    ];
    for of in [6, 7, 8, 9, 10, 11, 12, 14, 15, 16, 17, 18, 19, 23, 24, 28] {
        let parent = tree_of_kind(of);
        let count = parent.children.len();
        out.extend((0..count).map(|child| (parent.clone(), child, Takes::Expressions)));
    }
    out.push((two(kind::TAGGED_TEMPLATE), 1, Takes::Expressions));
    out.push((two(kind::TEMPLATE), 1, Takes::Expressions));
    out
}

/// Row 8: every kind as a statement's tree, and at every place.
pub fn kinds_at_places(cases: &mut Cases) {
    for of in 0..=kind::OPAQUE_TARGET {
        let number = if Takes::Expressions.takes(of) { 0 } else { 8 };
        cases.tree(number, &format!("kind {of} as a statement"), tree_of_kind(of));
    }
    for (parent, child, takes) in places() {
        for of in 0..=kind::OPAQUE_TARGET {
            let mut tree = parent.clone();
            tree.children[child] = tree_of_kind(of);
            let number = if takes.takes(of) { 0 } else { 8 };
            let what = format!("kind {of} as child {child} of kind {}", parent.kind);
            // A spread and a target tell one place from another.
            if of == kind::SPREAD || of == kind::TARGET_NAME {
                cases.tree(number, &what, as_expression(tree));
            } else {
                cases.bulk_tree(number, &what, as_expression(tree));
            }
        }
    }
}

/// Row 8: where an optional node can stand.
pub fn optional_nodes(cases: &mut Cases) {
    let chain = |child: Tree| Tree::new(kind::CHAIN, vec![child]);
    let member = |child: Tree| Tree::new(kind::STATIC_MEMBER, vec![child]);
    let optional = || member(Tree::name(PLAIN)).flagged(flag::OPTIONAL);
    for of in [kind::STATIC_MEMBER, kind::PRIVATE_MEMBER, kind::COMPUTED_MEMBER, kind::CALL] {
        let node = || tree_of_kind(of).flagged(flag::OPTIONAL);
        let over = |child: Tree| {
            let mut tree = tree_of_kind(of);
            tree.children[0] = child;
            tree
        };
        cases.tree(8, &format!("optional kind {of} without chain"), node());
        cases.tree(0, &format!("optional kind {of} in a chain"), chain(node()));
        cases.tree(0, &format!("optional below kind {of}"), chain(over(optional())));
        cases.tree(8, &format!("optional below kind {of}, no chain"), over(optional()));
        cases.tree(0, &format!("chain below kind {of}"), over(chain(optional())));
    }
    let keyed = Tree::new(kind::COMPUTED_MEMBER, vec![Tree::name(PLAIN), optional()]);
    cases.tree(8, "optional as a key", chain(keyed));
    cases.tree(8, "optional as an argument", chain(call(vec![optional()])));
    cases.tree(8, "optional behind new", chain(member(Tree::new(kind::NEW, vec![optional()]))));
    let unary = Tree::new(kind::UNARY, vec![optional()]);
    cases.tree(8, "optional behind an operator", chain(member(unary)));
    let sequence = Tree::new(kind::SEQUENCE, vec![optional(), Tree::literal()]);
    cases.tree(8, "optional behind a sequence", chain(member(sequence)));
    let tagged = Tree::new(kind::TAGGED_TEMPLATE, vec![optional()]);
    cases.tree(8, "optional behind a tag", chain(member(tagged)));
    cases.tree(8, "optional target", assign(0, optional()));
    cases.tree(0, "chain in a target", assign(0, member(chain(optional()))));
    cases.tree(0, "optional three deep", chain(member(member(call(vec![])))));
    cases.tree(0, "every link optional", chain(member(optional()).flagged(flag::OPTIONAL)));
}
