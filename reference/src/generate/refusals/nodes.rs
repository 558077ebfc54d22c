//! Row 7: nodes that are bad by themselves.

use super::{Cases, MUTATED, PLAIN, UNRESOLVED, assign};
use crate::build::Tree;
use crate::record::*;

/// A tree with a node of the kind at its root and as few children as it may have.
pub fn tree_of_kind(of: u8) -> Tree {
    let e = Tree::literal;
    let member = || Tree::new(kind::STATIC_MEMBER, vec![Tree::name(PLAIN)]);
    match of {
        kind::NAME => Tree::name(PLAIN),
        kind::AWAIT
        | kind::YIELD
        | kind::IMPORT
        | kind::UNARY
        | kind::STATIC_MEMBER
        | kind::PRIVATE_MEMBER
        | kind::PRIVATE_IN
        | kind::CALL
        | kind::NEW
        | kind::TAGGED_TEMPLATE
        | kind::TEMPLATE
        | kind::ARRAY => Tree::new(of, vec![e()]),
        kind::COMPUTED_MEMBER | kind::BINARY | kind::LOGICAL | kind::SEQUENCE => {
            Tree::new(of, vec![e(), e()])
        }
        kind::CONDITIONAL => Tree::new(of, vec![e(), e(), e()]),
        kind::CHAIN => Tree::new(of, vec![member()]),
        kind::ASSIGNMENT => assign(0, member()),
        kind::SPREAD => Tree::new(of, vec![e()]),
        kind::PROPERTY => Tree::new(of, vec![e()]),
        kind::TARGET_NAME => Tree::leaf(of).labelled(MUTATED),
        _ => Tree::leaf(of),
    }
}

/// The tree as an expression statement's, wrapped where its kind is no expression.
pub fn as_expression(tree: Tree) -> Tree {
    match tree.kind {
        kind::SPREAD | kind::ELISION => Tree::new(kind::ARRAY, vec![tree]),
        kind::PROPERTY => Tree::new(kind::OBJECT, vec![tree]),
        kind::TARGET_NAME | kind::OPAQUE_TARGET => assign(0, tree),
        _ => tree,
    }
}

/// The flags that a node of a kind may carry, outside a chain and on resolved names.
fn good_flags(of: u8) -> u8 {
    match of {
        kind::LITERAL
        | kind::NAME
        | kind::THIS
        | kind::CHAIN
        | kind::ELISION
        | kind::SEQUENCE
        | kind::TARGET_NAME => 0,
        kind::FUNCTION => flag::ANONYMOUS,
        kind::CLASS => flag::ANONYMOUS | flag::MARK,
        kind::ASSIGNMENT => flag::COMPOUND | flag::MARK,
        kind::PROPERTY => flag::PROTO,
        _ => flag::MARK,
    }
}

/// Row 7: each kind with each flag, and with a child more or less.
pub fn nodes_by_kind(cases: &mut Cases) {
    for of in 0..=kind::OPAQUE_TARGET {
        let good = good_flags(of);
        cases.tree(0, &format!("kind {of}"), as_expression(tree_of_kind(of).flagged(good)));
        for bit in 0..8 {
            let flags = 1 << bit;
            let own_row = is_about_another_row(of, flags);
            if good & flags == 0 && !own_row {
                let tree = as_expression(tree_of_kind(of).flagged(flags));
                let what = format!("kind {of} with bit {bit}");
                if flags == flag::MARK {
                    cases.tree(7, &what, tree);
                } else {
                    cases.bulk_tree(7, &what, tree);
                }
            }
        }
        children_of_kind(cases, of);
    }
}

/// Optional nodes are for row 8; a property's flags change its children.
fn is_about_another_row(of: u8, flags: u8) -> bool {
    let may_be_optional = matches!(
        of,
        kind::STATIC_MEMBER | kind::PRIVATE_MEMBER | kind::COMPUTED_MEMBER | kind::CALL
    );
    (may_be_optional && flags == flag::OPTIONAL)
        || (of == kind::PROPERTY && flags >= flag::SHORTHAND && flags <= flag::PROTO)
}

fn children_of_kind(cases: &mut Cases, of: u8) {
    let wrong: &[u16] = match of {
        kind::AWAIT | kind::IMPORT | kind::UNARY | kind::STATIC_MEMBER | kind::PRIVATE_MEMBER => {
            &[0, 2]
        }
        kind::CHAIN | kind::PRIVATE_IN | kind::SPREAD | kind::PROPERTY => &[0, 2],
        kind::YIELD => &[2],
        kind::COMPUTED_MEMBER | kind::BINARY | kind::LOGICAL | kind::ASSIGNMENT => &[1, 3],
        kind::CONDITIONAL => &[2, 4],
        kind::CALL | kind::NEW | kind::TAGGED_TEMPLATE => &[0],
        kind::SEQUENCE => &[0, 1],
        kind::ARRAY | kind::OBJECT | kind::TEMPLATE => &[],
        _ => &[1],
    };
    for &children in wrong {
        let tree = as_expression(tree_of_kind(of));
        let what = format!("kind {of} with {children} children");
        cases.changed_tree(7, &what, tree, |nodes| {
            let node = nodes.iter_mut().find(|it| it.kind == of);
            node.expect("the tree holds the kind").children = children;
        });
    }
}

/// Row 7: what isn't about a kind.
pub fn nodes_otherwise(cases: &mut Cases) {
    cases.change(7, "kind 31", |file| file.nodes[0].kind = 31);
    cases.change(7, "kind 255", |file| file.nodes[0].kind = 255);
    cases.change(7, "node's zero", |file| file.nodes[0].zero = 1);
    cases.change(7, "node's zero, high byte", |file| file.nodes[7].zero = 256);
    cases.change(0, "position 4294967294", |file| file.nodes[0].position = NEVER - 1);
    cases.change(7, "position 4294967295", |file| file.nodes[7].position = NEVER);
    cases.tree(7, "name 3 of 3", Tree::name(3));
    cases.tree(7, "name 65535", Tree::name(65535));
    cases.tree(7, "target 3 of 3", assign(0, Tree::leaf(kind::TARGET_NAME).labelled(3)));
    cases.tree(0, "literal 65535", Tree::literal().labelled(65535));
    cases.tree(0, "a marked unresolved name", Tree::name(UNRESOLVED).marked());
    let target = Tree::leaf(kind::TARGET_NAME).labelled(UNRESOLVED);
    cases.tree(0, "a marked unresolved target", assign(0, target.marked()));
}

/// Rows 7 and 8: every choice of a property's flags, over one and over two children.
pub fn properties(cases: &mut Cases) {
    for bits in 0..8 {
        let flags = bits * flag::SHORTHAND;
        let both = flags & flag::SHORTHAND != 0 && flags & flag::COMPUTED != 0;
        let wanted = if flags == flag::COMPUTED { 2 } else { 1 };
        for children in 1..=2 {
            let number = if both || children != wanted { 7 } else { 0 };
            let children = vec![Tree::name(PLAIN); children];
            let what = format!("property flags {flags}, {} children", children.len());
            let property = Tree::new(kind::PROPERTY, children).flagged(flags);
            cases.tree(number, &what, Tree::new(kind::OBJECT, vec![property]));
        }
    }
    for flags in [flag::SHORTHAND, flag::SHORTHAND | flag::PROTO] {
        let property = Tree::new(kind::PROPERTY, vec![Tree::literal()]).flagged(flags);
        cases.tree(8, "shorthand of a literal", Tree::new(kind::OBJECT, vec![property]));
    }
}
