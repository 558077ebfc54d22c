//! The twelve scripts, each with its text, its file and the file that its fold must give. The
//! results are put together by hand, not by the fold.

use crate::build::{Line, PLAIN_NAME, Tree, UNRESOLVED_NAME, declared_name, empty_file, push_line};
use crate::record::*;

pub struct Script {
    pub number: usize,
    pub text: &'static str,
    pub result_text: &'static str,
    pub folds: u32,
    pub looks: u64,
    pub file: RecordFile,
    pub result: RecordFile,
}

/// A script whose result has the same names.
fn script(
    texts: (&'static str, &'static str),
    folds: u32,
    names: Vec<Name>,
    lines: &[Line],
    result: &[Line],
) -> Script {
    let file_of = |lines: &[Line]| {
        let mut file = empty_file(names.clone());
        lines.iter().for_each(|line| push_line(&mut file, line));
        file
    };
    let (text, result_text) = texts;
    let (file, result) = (file_of(lines), file_of(result));
    Script { number: 0, text, result_text, folds, looks: 0, file, result }
}

/// A script that stays as it is.
fn kept(text: &'static str, names: Vec<Name>, lines: &[Line]) -> Script {
    script((text, "the same"), 0, names, lines, lines)
}

/// The looks of each script's fold, worked out by hand.
const LOOKS: [u64; 12] = [3, 0, 3, 2, 3, 3, 3, 1, 2, 2, 9, 5];

/// All scripts, in the order of their numbers.
pub fn scripts() -> Vec<Script> {
    let mut scripts = vec![
        literal_into_argument(),
        two_reads(),
        no_read(),
        effect_before_logical(),
        name_into_logical(),
        effect_before_optional_call(),
        effect_into_argument(),
        member_as_callee(),
        member_as_tag(),
        shorthand_stops(),
        two_declarators(),
        three_declarations(),
    ];
    for (number, (script, looks)) in (1..).zip(scripts.iter_mut().zip(LOOKS)) {
        (script.number, script.looks) = (number, looks);
    }
    scripts
}

fn name(number: u16, position: u32) -> Tree {
    Tree::name(number).at(position)
}

/// A call is marked.
fn call(callee: u16, position: u32, arguments: Vec<Tree>) -> Tree {
    let children = [vec![name(callee, position)], arguments].concat();
    Tree::new(kind::CALL, children).marked().at(position)
}

fn literal(position: u32) -> Tree {
    Tree::literal().at(position)
}

fn declare(kind: u8, name: u16, init: Tree) -> Line {
    Line::declare(kind, name, init)
}

fn expression(tree: Tree) -> Line {
    Line::Expression(tree)
}

const FIRST: u16 = 0;
const SECOND: u16 = 1;
const THIRD: u16 = 2;
const FOURTH: u16 = 3;

/// Names: n, use.
fn literal_into_argument() -> Script {
    script(
        ("const n=1; use(n)", "use(1)"),
        1,
        vec![declared_name(1), PLAIN_NAME],
        &[
            declare(statement::CONST, FIRST, literal(8)),
            expression(call(SECOND, 11, vec![name(FIRST, 15)])),
        ],
        &[expression(call(SECOND, 11, vec![literal(15)]))],
    )
}

/// Names: n, use.
fn two_reads() -> Script {
    kept(
        "const n=1; use(n), reads of n: 2",
        vec![declared_name(2), PLAIN_NAME],
        &[
            declare(statement::CONST, FIRST, literal(8)),
            expression(call(SECOND, 11, vec![name(FIRST, 15)])),
        ],
    )
}

/// Names: n, use, m.
fn no_read() -> Script {
    kept(
        "const n=1; use(m), reads of n: 0",
        vec![declared_name(0), PLAIN_NAME, PLAIN_NAME],
        &[
            declare(statement::CONST, FIRST, literal(8)),
            expression(call(SECOND, 11, vec![name(THIRD, 15)])),
        ],
    )
}

fn logical(left: Tree, right: Tree, position: u32) -> Tree {
    Tree::new(kind::LOGICAL, vec![left, right]).at(position)
}

/// Names: v, f, a.
fn effect_before_logical() -> Script {
    kept(
        "let v=f(); a&&v",
        vec![declared_name(1), PLAIN_NAME, PLAIN_NAME],
        &[
            declare(statement::LET, FIRST, call(SECOND, 6, vec![])),
            expression(logical(name(THIRD, 11), name(FIRST, 14), 11)),
        ],
    )
}

/// Names: v, b, a.
fn name_into_logical() -> Script {
    script(
        ("let v=b; a&&v", "a&&b"),
        1,
        vec![declared_name(1), PLAIN_NAME, PLAIN_NAME],
        &[
            declare(statement::LET, FIRST, name(SECOND, 6)),
            expression(logical(name(THIRD, 9), name(FIRST, 12), 9)),
        ],
        &[expression(logical(name(THIRD, 9), name(SECOND, 12), 9))],
    )
}

/// Names: v, f, o.
fn effect_before_optional_call() -> Script {
    let optional = call(THIRD, 11, vec![name(FIRST, 15)]).flagged(flag::OPTIONAL);
    kept(
        "let v=f(); o?.(v)",
        vec![declared_name(1), PLAIN_NAME, PLAIN_NAME],
        &[
            declare(statement::LET, FIRST, call(SECOND, 6, vec![])),
            expression(Tree::new(kind::CHAIN, vec![optional]).at(11)),
        ],
    )
}

/// Names: v, f, o.
fn effect_into_argument() -> Script {
    let folded = Tree::new(kind::CALL, vec![name(SECOND, 6)]).marked().at(13);
    script(
        ("let v=f(); o(v)", "o(f())"),
        1,
        vec![declared_name(1), PLAIN_NAME, PLAIN_NAME],
        &[
            declare(statement::LET, FIRST, call(SECOND, 6, vec![])),
            expression(call(THIRD, 11, vec![name(FIRST, 13)])),
        ],
        &[expression(call(THIRD, 11, vec![folded]))],
    )
}

fn member(object: u16, position: u32) -> Tree {
    Tree::new(kind::STATIC_MEMBER, vec![name(object, position)]).at(position)
}

/// Names: v, a.
fn member_as_callee() -> Script {
    kept(
        "let v=a.b; v(1)",
        vec![declared_name(1), PLAIN_NAME],
        &[
            declare(statement::LET, FIRST, member(SECOND, 6)),
            expression(call(FIRST, 11, vec![literal(13)])),
        ],
    )
}

/// Names: v, a. The inserted `0` and its sequence have the tag's position.
fn member_as_tag() -> Script {
    let tagged = |tag: Tree| Tree::new(kind::TAGGED_TEMPLATE, vec![tag]).marked().at(11);
    let folded = Tree::new(kind::STATIC_MEMBER, vec![name(SECOND, 6)]).at(11);
    let zero = literal(11).labelled(65535);
    let indirect = Tree::new(kind::SEQUENCE, vec![zero, folded]).at(11);
    script(
        ("let v=a.b; v``", "(0,a.b)``"),
        1,
        vec![declared_name(1), PLAIN_NAME],
        &[declare(statement::LET, FIRST, member(SECOND, 6)), expression(tagged(name(FIRST, 11)))],
        &[expression(tagged(indirect))],
    )
}

/// Names: v, f, g. The name g is unresolved.
fn shorthand_stops() -> Script {
    let object = |flags: u8| {
        let first = Tree::new(kind::PROPERTY, vec![name(THIRD, 13)]).flagged(flags).at(13);
        let second = Tree::new(kind::PROPERTY, vec![name(FIRST, 17)]).labelled(1).at(15);
        expression(Tree::new(kind::OBJECT, vec![first, second]).at(12))
    };
    let declaration = declare(statement::LET, FIRST, call(SECOND, 6, vec![]));
    script(
        ("let v=f(); ({g,k:v}), g unresolved", "let v=f(); ({g:g,k:v})"),
        0,
        vec![declared_name(1), PLAIN_NAME, UNRESOLVED_NAME],
        &[declaration.clone(), object(flag::SHORTHAND)],
        &[declaration, object(0)],
    )
}

/// Names: a, v, f, use, g.
fn two_declarators() -> Script {
    const G: u16 = 4;
    let declarators =
        vec![(FIRST, Some(call(THIRD, 6, vec![]))), (SECOND, Some(call(G, 13, vec![])))];
    let folded = |callee: u16, from: u32, to: u32| {
        Tree::new(kind::CALL, vec![name(callee, from)]).marked().at(to)
    };
    script(
        ("let a=f(), v=g(); use(a,v)", "use(f(),g())"),
        2,
        vec![declared_name(1), declared_name(1), PLAIN_NAME, PLAIN_NAME, PLAIN_NAME],
        &[
            Line::Declaration { kind: statement::LET, declarators },
            expression(call(FOURTH, 18, vec![name(FIRST, 22), name(SECOND, 24)])),
        ],
        &[expression(call(FOURTH, 18, vec![folded(THIRD, 6, 22), folded(G, 13, 24)]))],
    )
}

/// Names: v, y, z, f, use.
fn three_declarations() -> Script {
    const USE: u16 = 4;
    let declarators = vec![(SECOND, Some(name(FIRST, 17))), (THIRD, Some(name(SECOND, 21)))];
    let folded = Tree::new(kind::CALL, vec![name(FOURTH, 6)]).marked().at(28);
    script(
        ("let v=f(); let y=v, z=y; use(z)", "use(f())"),
        3,
        vec![declared_name(1), declared_name(1), declared_name(1), PLAIN_NAME, PLAIN_NAME],
        &[
            declare(statement::LET, FIRST, call(FOURTH, 6, vec![])),
            Line::Declaration { kind: statement::LET, declarators },
            expression(call(USE, 24, vec![name(THIRD, 28)])),
        ],
        &[expression(call(USE, 24, vec![folded]))],
    )
}
