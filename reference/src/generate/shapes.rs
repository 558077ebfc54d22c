//! The four shapes at which the Rust and ECMA-262 part, each as small as it can be. The Rust folds
//! them all.

use super::case::Case;
use super::trees::{positioned, searched};
use crate::build::{PLAIN_NAME, Tree, UNRESOLVED_NAME, declared_name};
use crate::record::*;

pub struct Shape {
    pub letter: char,
    pub text: &'static str,
    pub result_text: &'static str,
    pub file: RecordFile,
}

impl Shape {
    pub fn case(&self) -> Case {
        Case::of_records(self.text, &self.file)
    }
}

const SEARCHED: u16 = 0;
const OTHER: u16 = 1;

pub fn shapes() -> Vec<Shape> {
    vec![conversions(), operator(), whole_eval(), read_across()]
}

/// `let v = <initializer>; <tree>`, where the other name is as given.
fn file(other: Name, initializer: Tree, tree: Tree) -> RecordFile {
    positioned(vec![declared_name(1), other], &searched(initializer, tree))
}

fn effect() -> Tree {
    Tree::leaf(kind::OTHER).marked()
}

/// The first substitution is converted to a string before the second is run.
fn conversions() -> Shape {
    let parts = vec![Tree::name(OTHER), Tree::name(SEARCHED)];
    Shape {
        letter: 'P',
        text: "let v=f(); `${a}${v}`",
        result_text: "`${a}${f()}`",
        file: file(PLAIN_NAME, effect(), Tree::new(kind::TEMPLATE, parts)),
    }
}

/// Reading an unresolved name may throw; `typeof` over it doesn't.
fn operator() -> Shape {
    let over = Tree::new(kind::UNARY, vec![Tree::name(SEARCHED)]).labelled(2);
    Shape {
        letter: 'Q',
        text: "let v=g; typeof v, g unresolved",
        result_text: "typeof g",
        file: file(UNRESOLVED_NAME, Tree::name(OTHER), over),
    }
}

/// The call becomes a direct `eval`.
fn whole_eval() -> Shape {
    let eval = Name { flags: name::UNRESOLVED | name::EVAL, ..UNRESOLVED_NAME };
    let call = Tree::new(kind::CALL, vec![Tree::name(SEARCHED)]).marked();
    Shape {
        letter: 'R',
        text: "let v=eval; v(), eval unresolved",
        result_text: "eval()",
        file: file(eval, Tree::name(OTHER), call),
    }
}

/// The var of an outer function may be given its value while the effect runs.
fn read_across() -> Shape {
    let var = Name { flags: name::VAR, ..PLAIN_NAME };
    let items = vec![Tree::name(OTHER), Tree::name(SEARCHED)];
    let mut file = file(var, effect(), Tree::new(kind::ARRAY, items));
    file.scopes.push(Scope { parent: 0, flags: scope::FUNCTION });
    file.current_scope = 1;
    file.names[usize::from(SEARCHED)].scope = 1;
    Shape {
        letter: 'S',
        text: "let v=f(); [w,v], w a var outside the function",
        result_text: "[w,f()]",
        file,
    }
}
