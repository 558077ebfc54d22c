//! `let v = <initializer>; [v]`: the fold happens if nothing keeps the declarator.

use super::Table;
use crate::build::{Line, PLAIN_NAME, Tree, empty_file, push_line};
use crate::record::*;

/// Kind of declaration, initializer, kept names, literals only, scope, binding, searched place.
pub const TABLE: Table<7> = Table {
    what: "declarators",
    factors: [5, 8, 4, 2, 6, 10, 4],
    file,
    telling: &[
        // Kept names: of functions, of classes, of both.
        [0, 1, 1, 0, 0, 0, 0],
        [0, 2, 1, 0, 0, 0, 0],
        [0, 2, 2, 0, 0, 0, 0],
        [0, 2, 3, 0, 0, 0, 0],
        [0, 3, 2, 0, 0, 0, 0],
        [0, 4, 1, 0, 0, 0, 0],
        [0, 4, 2, 0, 0, 0, 0],
        [0, 4, 3, 0, 0, 0, 0],
        [0, 2, 1, 0, 0, 0, 3],
        [0, 2, 0, 0, 4, 0, 0],
        [0, 4, 0, 0, 4, 0, 0],
        // Literals only, which speaks of statements alone.
        [0, 1, 0, 1, 0, 0, 0],
        [0, 5, 0, 1, 0, 0, 0],
        [0, 6, 0, 1, 0, 0, 0],
        [0, 5, 0, 1, 0, 0, 1],
        [0, 5, 0, 1, 0, 0, 2],
        [0, 5, 0, 1, 0, 0, 3],
        // Within a declaration: using, direct eval, a script's outermost scope.
        [3, 0, 0, 0, 0, 0, 3],
        [4, 0, 0, 0, 0, 0, 3],
        [0, 0, 0, 0, 1, 0, 3],
        [0, 0, 0, 0, 5, 0, 3],
        [0, 0, 0, 0, 0, 2, 3],
        [0, 0, 0, 0, 0, 9, 3],
        [0, 7, 0, 0, 0, 0, 3],
    ],
};

const SEARCHED: u16 = 0;
const OTHER: u16 = 1;
/// Declared by the searched declaration.
const NEXT: u16 = 2;

/// The kind of declaration, by value.
const KINDS: [u8; 5] =
    [statement::LET, statement::VAR, statement::CONST, statement::USING, statement::AWAIT_USING];

/// Which names of functions and classes are kept, by value.
const KEPT: [u8; 4] = [
    0,
    option::KEEP_FUNCTION_NAMES,
    option::KEEP_CLASS_NAMES,
    option::KEEP_FUNCTION_NAMES | option::KEEP_CLASS_NAMES,
];

fn file(choice: [usize; 7]) -> RecordFile {
    let [kind, initializer, kept, literals, scope, binding, place] = choice;
    let mut file = empty_file(vec![name_of(binding), PLAIN_NAME, PLAIN_NAME]);
    file.options = KEPT[kept] | if literals == 1 { option::LITERAL_ONLY } else { 0 };
    choose_scope(scope, &mut file);
    let name = if binding == 9 { NONE } else { SEARCHED };
    let declarator = (name, initializer_of(initializer));
    // A name without a stated read can't be read.
    let read = if binding == 1 { OTHER } else { SEARCHED };
    let tree = Tree::new(kind::ARRAY, vec![Tree::name(read)]);
    for line in lines(KINDS[kind], declarator, tree, place) {
        push_line(&mut file, &line);
    }
    file
}

/// Read once, not read, read twice, written, unrecorded, catch, observable, mutated but not
/// written, import, and for a pattern.
fn name_of(binding: usize) -> Name {
    let flags = name::BLOCK_SCOPED | name::RECORDED;
    let good = Name { flags, scope: 0, reads: 1, writes: 0 };
    match binding {
        1 => Name { reads: 0, ..good },
        2 => Name { reads: 2, ..good },
        3 => Name { writes: 1, ..good },
        4 => Name { flags: name::BLOCK_SCOPED, reads: 0, ..good },
        5 => Name { flags: flags | name::CATCH, ..good },
        6 => Name { flags: flags | name::OBSERVABLE, ..good },
        7 => Name { flags: flags | name::MUTATED, ..good },
        8 => Name { flags: flags | name::IMPORT, ..good },
        _ => good,
    }
}

/// Literal, function, anonymous function, class, anonymous class, settled name, effect, none.
fn initializer_of(value: usize) -> Option<Tree> {
    let anonymous = |of: u8| Tree::leaf(of).flagged(flag::ANONYMOUS);
    match value {
        0 => Some(Tree::literal()),
        1 => Some(Tree::leaf(kind::FUNCTION)),
        2 => Some(anonymous(kind::FUNCTION)),
        3 => Some(Tree::leaf(kind::CLASS)),
        4 => Some(anonymous(kind::CLASS)),
        5 => Some(Tree::name(OTHER)),
        6 => Some(Tree::leaf(kind::OTHER).marked()),
        _ => None,
    }
}

/// No script: scope 1 within 0, direct eval there, direct eval outside, scope 0. A script: scope 1,
/// scope 0.
fn choose_scope(value: usize, file: &mut RecordFile) {
    file.scopes.push(Scope { parent: 0, flags: 0 });
    file.current_scope = if matches!(value, 3 | 5) { 0 } else { 1 };
    match value {
        1 => file.scopes[1].flags = scope::DIRECT_EVAL,
        2 => file.scopes[0].flags = scope::DIRECT_EVAL,
        4 | 5 => file.options |= option::SCRIPT,
        _ => (),
    }
}

/// The tree as an expression statement, as the initializer of the next declaration and of the next
/// using, and as that of the same declaration's next declarator.
fn lines(kind: u8, declarator: (u16, Option<Tree>), tree: Tree, place: usize) -> Vec<Line> {
    let next = (NEXT, Some(tree.clone()));
    let of = |kind: u8, declarators: Vec<_>| Line::Declaration { kind, declarators };
    match place {
        0 => vec![of(kind, vec![declarator]), Line::Expression(tree)],
        1 => vec![of(kind, vec![declarator]), of(statement::VAR, vec![next])],
        2 => vec![of(kind, vec![declarator]), of(statement::USING, vec![next])],
        _ => vec![of(kind, vec![declarator, next])],
    }
}
