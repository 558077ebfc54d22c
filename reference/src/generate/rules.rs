//! Each rule of the search with the inputs next to it on either side. How many folds there must be
//! is worked out by hand. `trees.rs` has the names of the texts.

mod lists;
mod passed;
mod places;
mod targets;

use super::case::Case;
use super::trees::*;
use crate::build::Tree;
use crate::record::*;

pub struct Rule {
    pub text: &'static str,
    pub folds: u32,
    pub file: RecordFile,
}

impl Rule {
    pub fn case(&self) -> Case {
        Case::of_records(self.text, &self.file)
    }
}

pub fn rules() -> Vec<Rule> {
    [
        places::rules(),
        places::branches(),
        places::chains(),
        lists::calls(),
        lists::arrays(),
        lists::objects(),
        lists::tags(),
        targets::values(),
        targets::members(),
        passed::leaves(),
        passed::effects(),
        passed::marked(),
    ]
    .into_iter()
    .flatten()
    .collect()
}

/// `let v = <initializer>; <tree>`.
fn rule(folds: u32, text: &'static str, initializer: Tree, tree: Tree) -> Rule {
    Rule { text, folds, file: positioned(names(), &searched(initializer, tree)) }
}

fn then_v(tree: Tree) -> Tree {
    array([tree, v()])
}
