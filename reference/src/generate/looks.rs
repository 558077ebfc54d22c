//! Small files with the looks of their folds, worked out by hand: "one entry of the expression walk
//! into a node, each call of the Rust's `substitute_single_use_symbol_in_expression` being one and
//! nothing else; spread, property, elision and target nodes are none".
//!
//! The names of the texts are those of `trees.rs`, and `r`, which is declared and read once. In what
//! is entered, `f` is the callee of `f()`.

mod entered;
mod searches;

use super::case::Case;
use super::trees::*;
use crate::build::{Line, Tree, declared_name};
use crate::record::*;

pub struct Looked {
    pub text: &'static str,
    /// The expressions that are entered, in order, each as the walk finds it; `|` stands between
    /// them.
    pub entered: &'static str,
    pub file: RecordFile,
}

impl Looked {
    pub fn case(&self) -> Case {
        Case::of_records(self.text, &self.file)
    }

    pub fn looks(&self) -> u64 {
        self.entered.split('|').map(|it| u64::from(!it.is_empty())).sum()
    }

    fn with(mut self, change: impl FnOnce(&mut RecordFile)) -> Self {
        change(&mut self.file);
        self
    }
}

pub fn looked() -> Vec<Looked> {
    [
        entered::operators(),
        entered::branches(),
        entered::chains(),
        entered::calls(),
        entered::lists(),
        entered::objects(),
        entered::assignments(),
        searches::none(),
        searches::several(),
        searches::of_what_was_folded(),
    ]
    .into_iter()
    .flatten()
    .collect()
}

/// `let v = <initializer>; <tree>`.
fn looked_at(entered: &'static str, text: &'static str, initializer: Tree, tree: Tree) -> Looked {
    looked_over(entered, text, &searched(initializer, tree))
}

fn looked_over(entered: &'static str, text: &'static str, lines: &[Line]) -> Looked {
    let names = [names(), vec![declared_name(1)]].concat();
    Looked { text, entered, file: positioned(names, lines) }
}
