//! Trees as deep as a file can hold, for each kind of node that nests and each place of a child.

use crate::build::{PLAIN_NAME, UNRESOLVED_NAME, declared_name, empty_file};
use crate::record::*;
use crate::refusal::MOST_NODES;

const SEARCHED: u16 = 0;
const SETTLED: u16 = 1;
const UNRESOLVED: u16 = 2;

/// One level of a nest: the nodes before the next level, and those behind it.
struct Level {
    what: &'static str,
    before: Vec<Node>,
    behind: Vec<Node>,
}

fn node(kind: u8, flags: u8, label: u16, children: u16) -> Node {
    Node { kind, flags, label, children, zero: 0, position: 5 }
}

fn parent(kind: u8, children: u16) -> Node {
    node(kind, 0, 0, children)
}

fn literal() -> Node {
    parent(kind::LITERAL, 0)
}

fn settled() -> Node {
    node(kind::NAME, 0, SETTLED, 0)
}

fn level(what: &'static str, before: Vec<Node>, behind: Vec<Node>) -> Level {
    Level { what, before, behind }
}

fn plain_levels() -> Vec<Level> {
    [unary_levels(), member_levels(), call_levels(), branch_levels(), list_levels()]
        .into_iter()
        .flatten()
        .collect()
}

fn unary_levels() -> Vec<Level> {
    vec![
        level("await", vec![parent(kind::AWAIT, 1)], vec![]),
        level("yield", vec![parent(kind::YIELD, 1)], vec![]),
        level("import", vec![parent(kind::IMPORT, 1)], vec![]),
        level("unary", vec![parent(kind::UNARY, 1)], vec![]),
        level("delete", vec![node(kind::UNARY, 0, 1, 1)], vec![]),
        level("typeof", vec![node(kind::UNARY, 0, 2, 1)], vec![]),
        level("private in", vec![parent(kind::PRIVATE_IN, 1)], vec![]),
    ]
}

fn member_levels() -> Vec<Level> {
    let chain = parent(kind::CHAIN, 1);
    let optional = |kind: u8, children: u16| node(kind, flag::OPTIONAL, 0, children);
    vec![
        level("static member", vec![parent(kind::STATIC_MEMBER, 1)], vec![]),
        level("private member", vec![parent(kind::PRIVATE_MEMBER, 1)], vec![]),
        level("computed member, object", vec![parent(kind::COMPUTED_MEMBER, 2)], vec![literal()]),
        level("computed member, key", vec![parent(kind::COMPUTED_MEMBER, 2), settled()], vec![]),
        level("chain, member", vec![chain, optional(kind::STATIC_MEMBER, 1)], vec![]),
        level("chain, call", vec![chain, optional(kind::CALL, 1)], vec![]),
        level("chain, argument", vec![chain, optional(kind::CALL, 2), settled()], vec![]),
        level("chain, key", vec![chain, optional(kind::COMPUTED_MEMBER, 2), settled()], vec![]),
    ]
}

fn call_levels() -> Vec<Level> {
    let spread = parent(kind::SPREAD, 1);
    vec![
        level("callee", vec![parent(kind::CALL, 1)], vec![]),
        level("marked callee", vec![node(kind::CALL, flag::MARK, 0, 1)], vec![]),
        level("argument", vec![parent(kind::CALL, 2), settled()], vec![]),
        level("spread argument", vec![parent(kind::CALL, 2), settled(), spread], vec![]),
        level("new, callee", vec![parent(kind::NEW, 1)], vec![]),
        level("new, argument", vec![parent(kind::NEW, 2), settled()], vec![]),
        level("new, spread", vec![parent(kind::NEW, 2), settled(), spread], vec![]),
        level("tag", vec![parent(kind::TAGGED_TEMPLATE, 1)], vec![]),
        level("tagged part", vec![parent(kind::TAGGED_TEMPLATE, 2), settled()], vec![]),
    ]
}

fn branch_levels() -> Vec<Level> {
    let assignment = parent(kind::ASSIGNMENT, 2);
    let target_name = node(kind::TARGET_NAME, 0, UNRESOLVED, 0);
    let opaque = parent(kind::OPAQUE_TARGET, 0);
    let member = parent(kind::STATIC_MEMBER, 1);
    vec![
        level("binary, left", vec![parent(kind::BINARY, 2)], vec![literal()]),
        level("binary, right", vec![parent(kind::BINARY, 2), literal()], vec![]),
        level("logical, left", vec![parent(kind::LOGICAL, 2)], vec![literal()]),
        level("logical, right", vec![parent(kind::LOGICAL, 2), literal()], vec![]),
        level("test", vec![parent(kind::CONDITIONAL, 3)], vec![literal(), literal()]),
        level("first branch", vec![parent(kind::CONDITIONAL, 3), literal()], vec![literal()]),
        level("second branch", vec![parent(kind::CONDITIONAL, 3), literal(), literal()], vec![]),
        level("value for a name", vec![assignment, target_name], vec![]),
        level("value for an opaque target", vec![assignment, opaque], vec![]),
        level("value for a member", vec![assignment, member, settled()], vec![]),
        level("object of a target", vec![assignment, member], vec![literal()]),
    ]
}

fn list_levels() -> Vec<Level> {
    let object = parent(kind::OBJECT, 1);
    let property = |flags: u8, children: u16| node(kind::PROPERTY, flags, 0, children);
    let elision = parent(kind::ELISION, 0);
    let spread = parent(kind::SPREAD, 1);
    let keyed = property(flag::COMPUTED, 2);
    vec![
        level("array", vec![parent(kind::ARRAY, 1)], vec![]),
        level("array behind an elision", vec![parent(kind::ARRAY, 2), elision], vec![]),
        level("array spread", vec![parent(kind::ARRAY, 1), spread], vec![]),
        level("property", vec![object, property(0, 1)], vec![]),
        level("computed key", vec![object, keyed], vec![literal()]),
        level("value of a computed key", vec![object, keyed, literal()], vec![]),
        level("value of the string key", vec![object, property(96, 1)], vec![]),
        level("object spread", vec![object, spread], vec![]),
        level("template", vec![parent(kind::TEMPLATE, 1)], vec![]),
        level("template, second part", vec![parent(kind::TEMPLATE, 2), literal()], vec![]),
        level("sequence, first", vec![parent(kind::SEQUENCE, 2)], vec![literal()]),
        level("sequence, last", vec![parent(kind::SEQUENCE, 2), literal()], vec![]),
    ]
}

/// Levels behind trees that are no leaves.
fn small_tree_levels() -> Vec<Level> {
    let array = |children: u16| parent(kind::ARRAY, children);
    let binary = parent(kind::BINARY, 2);
    let call = |children: u16| parent(kind::CALL, children);
    let member = parent(kind::STATIC_MEMBER, 1);
    let test = vec![parent(kind::CONDITIONAL, 3), binary, settled(), literal()];
    let argument = vec![call(3), settled(), call(2), settled(), literal()];
    let property = parent(kind::PROPERTY, 1);
    vec![
        level("array behind an array", vec![array(2), array(0)], vec![]),
        level(
            "array behind an operator",
            vec![array(2), parent(kind::UNARY, 1), literal()],
            vec![],
        ),
        level("operand behind a member", vec![binary, member, settled()], vec![]),
        level("operand behind an operator", vec![binary, binary, settled(), literal()], vec![]),
        level("argument of a method", vec![call(2), member, settled()], vec![]),
        level("argument behind a call", argument, vec![]),
        level("branch behind an operator", test, vec![literal()]),
        level(
            "property behind a property",
            vec![parent(kind::OBJECT, 2), property, literal(), property],
            vec![],
        ),
    ]
}

/// The file that declares the name and holds as many levels as fit, with the name within the last.
fn nest(level: &Level, initializer: &[Node]) -> RecordFile {
    let most = usize::try_from(MOST_NODES).expect("it is small") - 2;
    let per_level = level.before.len() + level.behind.len();
    let depth = (most - initializer.len() - 1) / per_level;
    let settled_name = Name { flags: name::BLOCK_SCOPED, ..PLAIN_NAME };
    let mut file = empty_file(vec![declared_name(1), settled_name, UNRESOLVED_NAME]);
    file.nodes.extend_from_slice(initializer);
    file.nodes.extend(level.before.repeat(depth));
    file.nodes.push(Node { position: 9, ..node(kind::NAME, 0, SEARCHED, 0) });
    file.nodes.extend(level.behind.repeat(depth));
    file.declarators.push(Declarator { name: SEARCHED, initializer: 1 });
    file.statements.push(Statement { kind: statement::LET, zero: 0, declarators: 1 });
    file.statements.push(Statement { kind: statement::EXPRESSION, zero: 0, declarators: 0 });
    file
}

/// The nests of some levels, for a literal, for an effect and for a member.
fn nests_of(levels: &[Level]) -> Vec<(String, RecordFile)> {
    let initializers = [
        ("literal", vec![literal()]),
        ("effect", vec![node(kind::CALL, flag::MARK, 0, 1), settled()]),
        ("member", vec![parent(kind::STATIC_MEMBER, 1), settled()]),
    ];
    let of = |level: &Level| {
        let named = |what: &str| format!("{}, {what}", level.what);
        initializers.each_ref().map(|(what, tree)| (named(what), nest(level, tree)))
    };
    levels.iter().flat_map(of).collect()
}

/// The nests in which nothing but leaves and targets stands beside a level.
pub fn plain_nests() -> Vec<(String, RecordFile)> {
    nests_of(&plain_levels())
}

/// These, and those with other small trees before each level.
pub fn nests() -> Vec<(String, RecordFile)> {
    [plain_nests(), nests_of(&small_tree_levels())].concat()
}
