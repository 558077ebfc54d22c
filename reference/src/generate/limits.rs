//! Files at the limits of the header's counts and just beyond, and files that take the most work.

use super::case::Case;
use crate::build::{Line, PLAIN_NAME, Tree, declared_name, empty_file, file_of, push_line};
use crate::record::*;

/// Every case, with the expected number.
pub fn limits() -> Vec<Case> {
    let mut cases = Vec::new();
    cases.extend(nodes_and_declarators());
    cases.extend(other_counts());
    cases.extend(most_folds());
    cases
}

fn case(number: u32, what: &str, file: &RecordFile) -> Case {
    Case::of_records(what, file).expecting(number)
}

/// A statement with a tree of so many nodes, all but the root literals.
fn wide_line(nodes: usize) -> Line {
    Line::Expression(Tree::new(kind::ARRAY, vec![Tree::literal(); nodes - 1]))
}

fn patterns(count: usize) -> Line {
    Line::Declaration { kind: statement::VAR, declarators: vec![(NONE, None); count] }
}

/// A pattern, a wide tree: so many nodes and declarators.
fn wide_file(nodes: usize, declarators: usize) -> RecordFile {
    let mut file = empty_file(vec![]);
    push_line(&mut file, &patterns(declarators));
    push_line(&mut file, &wide_line(nodes));
    file
}

fn nodes_and_declarators() -> Vec<Case> {
    vec![
        case(0, "3000 nodes", &wide_file(3000, 0)),
        case(3, "3001 nodes", &wide_file(3001, 0)),
        case(0, "2998 nodes, 1 declarator", &wide_file(2998, 1)),
        case(3, "2999 nodes, 1 declarator", &wide_file(2999, 1)),
        case(0, "2000 nodes, 500 declarators", &wide_file(2000, 500)),
        case(3, "2001 nodes, 500 declarators", &wide_file(2001, 500)),
        case(3, "10 nodes, 501 declarators", &wide_file(10, 501)),
    ]
}

/// A file with these counts of names, scopes, frames and statements.
fn counted_file(names: usize, scopes: usize, frames: usize, statements: usize) -> RecordFile {
    let mut file = empty_file(vec![PLAIN_NAME; names]);
    file.scopes.clear();
    for number in 0..u16::try_from(scopes).expect("there are few") {
        let parent = if number == 0 { NONE } else { number - 1 };
        file.scopes.push(Scope { parent, flags: 0 });
    }
    file.frames = vec![Frame { scope: 0, zero: 0, initialised: 0 }; frames];
    (0..statements).for_each(|_| push_line(&mut file, &Line::Other));
    file
}

fn other_counts() -> Vec<Case> {
    vec![
        case(0, "no name, no frame", &counted_file(0, 1, 0, 1)),
        case(0, "256 names", &counted_file(256, 1, 0, 1)),
        case(3, "257 names", &counted_file(257, 1, 0, 1)),
        case(0, "256 scopes", &counted_file(0, 256, 0, 1)),
        case(3, "257 scopes", &counted_file(0, 257, 0, 1)),
        case(3, "no scope", &counted_file(0, 0, 0, 1)),
        case(0, "16 frames", &counted_file(0, 1, 16, 1)),
        case(3, "17 frames", &counted_file(0, 1, 17, 1)),
        case(0, "500 statements", &counted_file(0, 1, 0, 500)),
        case(3, "501 statements", &counted_file(0, 1, 0, 501)),
        case(3, "no statement", &counted_file(0, 1, 0, 0)),
        case(0, "the longest file", &longest_file(3000, 0)),
        case(0, "every count at its limit", &longest_file(2000, 500)),
    ]
}

/// As many names, scopes, frames and statements as a file may have.
fn longest_file(nodes: usize, declarators: usize) -> RecordFile {
    let mut file = counted_file(256, 256, 16, 498);
    push_line(&mut file, &wide_line(nodes));
    push_line(&mut file, &patterns(declarators));
    file
}

/// Names to declare, each read once.
const DECLARED: u16 = 255;

fn names() -> Vec<Name> {
    let mut names = vec![declared_name(1); usize::from(DECLARED)];
    names.push(PLAIN_NAME);
    names
}

/// The name of this number, and what is made of it for the next declarator.
type Next = fn(Tree) -> Tree;

fn same(name: Tree) -> Tree {
    name
}

fn tagged_member(name: Tree) -> Tree {
    let tagged = Tree::new(kind::TAGGED_TEMPLATE, vec![name]).marked();
    Tree::new(kind::STATIC_MEMBER, vec![tagged])
}

/// `first, v1 = next(v0), v2 = next(v1)`: each declarator takes the one before.
fn row_of_declarators(first: Tree, next: Next) -> Vec<(u16, Option<Tree>)> {
    let mut out = vec![(0, Some(first))];
    for number in 1..DECLARED {
        out.push((number, Some(next(Tree::name(number - 1)).at(u32::from(number)))));
    }
    out
}

fn member() -> Tree {
    Tree::new(kind::STATIC_MEMBER, vec![Tree::name(DECLARED)])
}

fn most_folds() -> Vec<Case> {
    let last = Line::Expression(Tree::name(DECLARED - 1));
    let one_declaration = |declarators| {
        file_of(names(), &[Line::Declaration { kind: statement::LET, declarators }, last.clone()])
    };
    let in_statements = |declarators: Vec<(u16, Option<Tree>)>| {
        let mut file = empty_file(names());
        for declarator in declarators {
            let line = Line::Declaration { kind: statement::LET, declarators: vec![declarator] };
            push_line(&mut file, &line);
        }
        push_line(&mut file, &last);
        file
    };
    let literals = row_of_declarators(Tree::literal(), same);
    let tags = row_of_declarators(member(), tagged_member);
    vec![
        case(0, "255 folds within a declaration", &one_declaration(literals.clone())),
        case(0, "255 folds over statements", &in_statements(literals)),
        case(0, "256 names folded into one statement", &every_name_folded()),
        case(0, "254 kept tags within a declaration", &one_declaration(tags.clone())).in_bulk(),
        case(0, "254 kept tags over statements", &in_statements(tags.clone())).in_bulk(),
        case(0, "254 kept tags, 3000 nodes", &filled_up(one_declaration(tags))),
        case(0, "many looks, folded", &many_looks(true)),
        case(0, "many looks, not folded", &many_looks(false)),
        case(0, "many looks through a deep tree", &deep_looks()),
        case(0, "255 empty declarations", &empty_declarations()),
    ]
}

/// As many names as a file may have, each a declarator, all folded into one array.
fn every_name_folded() -> RecordFile {
    let names = DECLARED + 1;
    let declarators = (0..names).map(|name| (name, Some(Tree::literal()))).collect();
    let lines = [
        Line::Declaration { kind: statement::CONST, declarators },
        Line::Expression(Tree::new(kind::ARRAY, (0..names).map(Tree::name).collect())),
    ];
    file_of(vec![declared_name(1); usize::from(names)], &lines)
}

/// So many literals, all searched for in one array with these items.
fn literals_sought_in(count: u16, items: Vec<Tree>) -> RecordFile {
    let declarators = (0..count).map(|name| (name, Some(Tree::literal()))).collect();
    let lines = [
        Line::Declaration { kind: statement::CONST, declarators },
        Line::Expression(Tree::new(kind::ARRAY, items)),
    ];
    file_of(names(), &lines)
}

/// So many other names stand before the sought ones that the file has all the nodes it may have.
fn many_looks(folded: bool) -> RecordFile {
    let mut items = vec![Tree::name(DECLARED); 1979];
    if folded {
        items.extend((0..DECLARED).map(Tree::name));
    }
    literals_sought_in(DECLARED, items)
}

/// The nodes before the sought names stand each below the other. The Rust asks for the effect at
/// each of them again.
fn deep_looks() -> RecordFile {
    const SOUGHT: u16 = 30;
    let mut deep = Tree::name(DECLARED);
    for _ in 0..2878 {
        deep = Tree::new(kind::UNARY, vec![deep]);
    }
    let items = std::iter::once(deep).chain((0..SOUGHT).map(Tree::name));
    literals_sought_in(SOUGHT, items.collect())
}

/// The file with one more statement, and then as many nodes as a file may have.
fn filled_up(mut file: RecordFile) -> RecordFile {
    let nodes = 3000 - 2 * file.declarators.len() - file.nodes.len();
    push_line(&mut file, &wide_line(nodes));
    file
}

/// One search drops them all.
fn empty_declarations() -> RecordFile {
    let mut lines = vec![Line::declare(statement::LET, 0, Tree::literal())];
    let empty = Line::Declaration { kind: statement::VAR, declarators: vec![] };
    lines.extend(vec![empty; usize::from(DECLARED)]);
    lines.push(Line::Expression(Tree::name(0)));
    file_of(names(), &lines)
}
