//! The table of refusals, a function to a row, tested in the table's order.

use crate::record::{self, *};

pub const MOST_NAMES: u16 = 256;
pub const MOST_SCOPES: u16 = 256;
pub const MOST_FRAMES: u16 = 16;
pub const MOST_DECLARATORS: u16 = 500;
pub const MOST_STATEMENTS: u16 = 500;
/// Of nodes and twice the declarators together.
pub const MOST_NODES: u32 = 3000;
/// What a folded declarator can add to the length.
pub const ROOM_PER_DECLARATOR: usize = 8;
/// The last row, which asks for room.
pub const ROOM_ROW: u32 = 11;

/// The file's records, or the number of the first row that refuses it.
pub fn read_checked(file: &[u8], room: usize) -> Result<RecordFile, u32> {
    refuse(1, is_no_record_file(file))?;
    let header = read_header(file);
    refuse(2, header.version != VERSION)?;
    refuse(3, header_is_bad(&header))?;
    refuse(4, file.len() != header.file_bytes())?;
    let records = read_parts(&header, file);
    refuse(5, facts_are_bad(&records))?;
    refuse(6, statements_are_bad(&records))?;
    refuse(7, records.nodes.iter().any(|node| node_is_bad(node, &records.names)))?;
    refuse(8, trees_are_bad(&records))?;
    refuse(9, a_name_is_declared_twice(&records))?;
    refuse(10, counts_are_exceeded(&records))?;
    refuse(ROOM_ROW, room < file.len() + ROOM_PER_DECLARATOR * records.declarators.len())?;
    Ok(records)
}

fn refuse(number: u32, bad: bool) -> Result<(), u32> {
    if bad { Err(number) } else { Ok(()) }
}

/// Row 1.
fn is_no_record_file(file: &[u8]) -> bool {
    file.len() < HEADER_BYTES || !file.starts_with(LETTERS)
}

/// Row 3.
fn header_is_bad(header: &Header) -> bool {
    let nodes_and_declarators = u32::from(header.nodes) + 2 * u32::from(header.declarators);
    let counts_fit = header.names <= MOST_NAMES
        && (1..=MOST_SCOPES).contains(&header.scopes)
        && header.frames <= MOST_FRAMES
        && header.declarators <= MOST_DECLARATORS
        && (1..=MOST_STATEMENTS).contains(&header.statements)
        && nodes_and_declarators <= MOST_NODES;
    let scopes_fit = header.current_scope < header.scopes
        && (header.this_scope < header.scopes || header.this_scope == NONE);
    let options_known = header.options & !option::ALL == 0;
    !(counts_fit && scopes_fit && options_known && header.zero == 0)
}

/// Row 5.
fn facts_are_bad(file: &RecordFile) -> bool {
    let scopes = file.scopes.len();
    file.names.iter().any(|it| name_is_bad(it, scopes))
        || file.scopes.iter().enumerate().any(|(number, it)| scope_is_bad(number, it))
        || file.frames.iter().any(|it| usize::from(it.scope) >= scopes || it.zero != 0)
}

fn name_is_bad(it: &Name, scopes: usize) -> bool {
    let counts_are_zero = it.reads == 0 && it.writes == 0;
    if it.flags & !name::ALL != 0 {
        return true;
    }
    if it.is_unresolved() {
        let known_bits = name::UNRESOLVED | name::EVAL;
        return it.flags & !known_bits != 0 || it.scope != NONE || !counts_are_zero;
    }
    it.flags & name::EVAL != 0
        || usize::from(it.scope) >= scopes
        || (!it.is_recorded() && !counts_are_zero)
}

fn scope_is_bad(number: usize, it: &Scope) -> bool {
    let parent_is_good =
        if number == 0 { it.parent == NONE } else { usize::from(it.parent) < number };
    !parent_is_good || it.flags & !scope::ALL != 0
}

/// Row 6.
fn statements_are_bad(file: &RecordFile) -> bool {
    let declared: usize = file.statements.iter().map(|it| usize::from(it.declarators)).sum();
    file.declarators.iter().any(|it| declarator_is_bad(it, &file.names))
        || file.statements.iter().any(statement_is_bad)
        || declared != file.declarators.len()
}

fn declarator_is_bad(it: &Declarator, names: &[Name]) -> bool {
    let name_is_good = it.name == NONE
        || names.get(usize::from(it.name)).is_some_and(|name| !name.is_unresolved());
    !name_is_good || it.initializer > 1
}

fn statement_is_bad(it: &record::Statement) -> bool {
    it.kind > statement::OTHER
        || it.zero != 0
        || (it.kind >= statement::EXPRESSION && it.declarators != 0)
}

/// Row 7.
fn node_is_bad(it: &Node, names: &[Name]) -> bool {
    it.kind > kind::OPAQUE_TARGET
        || it.zero != 0
        || it.position == NEVER
        || label_is_bad(it, names)
        || flags_are_bad(it, names)
        || !children_fit(it)
}

fn is_name_or_target(it: &Node) -> bool {
    it.kind == kind::NAME || it.kind == kind::TARGET_NAME
}

fn label_is_bad(it: &Node, names: &[Name]) -> bool {
    is_name_or_target(it) && usize::from(it.label) >= names.len()
}

fn flags_are_bad(it: &Node, names: &[Name]) -> bool {
    let known = mark_if_allowed(it, names) | flags_of_kind(it.kind);
    it.flags & !known != 0 || (it.has(flag::SHORTHAND) && it.has(flag::COMPUTED))
}

/// The mark, where the node may carry it.
fn mark_if_allowed(it: &Node, names: &[Name]) -> u8 {
    let allowed = match it.kind {
        kind::NAME | kind::TARGET_NAME => names[usize::from(it.label)].is_unresolved(),
        kind::LITERAL
        | kind::FUNCTION
        | kind::THIS
        | kind::CHAIN
        | kind::PROPERTY
        | kind::ELISION
        | kind::SEQUENCE => false,
        _ => true,
    };
    if allowed { flag::MARK } else { 0 }
}

/// The other flags that nodes of a kind may carry.
fn flags_of_kind(of: u8) -> u8 {
    match of {
        kind::STATIC_MEMBER | kind::PRIVATE_MEMBER | kind::COMPUTED_MEMBER | kind::CALL => {
            flag::OPTIONAL
        }
        kind::FUNCTION | kind::CLASS => flag::ANONYMOUS,
        kind::ASSIGNMENT => flag::COMPOUND,
        kind::PROPERTY => flag::SHORTHAND | flag::COMPUTED | flag::PROTO,
        _ => 0,
    }
}

fn children_fit(it: &Node) -> bool {
    match it.kind {
        kind::OTHER
        | kind::LITERAL
        | kind::FUNCTION
        | kind::CLASS
        | kind::NAME
        | kind::THIS
        | kind::ELISION
        | kind::TARGET_NAME
        | kind::OPAQUE_TARGET => it.children == 0,
        kind::AWAIT
        | kind::IMPORT
        | kind::UNARY
        | kind::STATIC_MEMBER
        | kind::PRIVATE_MEMBER
        | kind::CHAIN
        | kind::PRIVATE_IN
        | kind::SPREAD => it.children == 1,
        kind::COMPUTED_MEMBER | kind::BINARY | kind::LOGICAL | kind::ASSIGNMENT => it.children == 2,
        kind::CONDITIONAL => it.children == 3,
        kind::YIELD => it.children <= 1,
        kind::CALL | kind::NEW | kind::TAGGED_TEMPLATE => it.children >= 1,
        kind::SEQUENCE => it.children >= 2,
        kind::PROPERTY => {
            let key_has_node = it.has(flag::COMPUTED) && !it.has(flag::PROTO);
            it.children == if key_has_node { 2 } else { 1 }
        }
        _ => true,
    }
}

/// What may stand at a place of a tree.
#[derive(Clone, Copy)]
enum Wanted {
    Expression,
    ShorthandName,
    ChainElement,
    Target,
    Argument,
    ArrayItem,
    ObjectItem,
}

impl Wanted {
    fn takes(self, child: u8) -> bool {
        let is_member =
            matches!(child, kind::STATIC_MEMBER | kind::PRIVATE_MEMBER | kind::COMPUTED_MEMBER);
        match self {
            Self::Expression => is_expression(child),
            Self::ShorthandName => child == kind::NAME,
            Self::ChainElement => is_member || child == kind::CALL,
            Self::Target => is_member || child == kind::TARGET_NAME || child == kind::OPAQUE_TARGET,
            Self::Argument => is_expression(child) || child == kind::SPREAD,
            Self::ArrayItem => {
                is_expression(child) || child == kind::SPREAD || child == kind::ELISION
            }
            Self::ObjectItem => child == kind::PROPERTY || child == kind::SPREAD,
        }
    }
}

fn is_expression(kind: u8) -> bool {
    kind <= kind::TAGGED_TEMPLATE || kind == kind::SEQUENCE
}

/// A node whose children are still being read.
struct Open {
    node: Node,
    next_child: u16,
    /// A chain stands above, reached by first children of members and calls alone.
    in_chain: bool,
}

impl Open {
    fn wanted(&self) -> Wanted {
        match (self.node.kind, self.next_child) {
            (kind::CHAIN, _) => Wanted::ChainElement,
            (kind::ASSIGNMENT, 0) => Wanted::Target,
            (kind::CALL | kind::NEW, 1..) => Wanted::Argument,
            (kind::ARRAY, _) => Wanted::ArrayItem,
            (kind::OBJECT, _) => Wanted::ObjectItem,
            (kind::PROPERTY, _) if self.node.has(flag::SHORTHAND) => Wanted::ShorthandName,
            _ => Wanted::Expression,
        }
    }

    fn child_is_in_chain(&self) -> bool {
        match self.node.kind {
            kind::CHAIN => true,
            kind::STATIC_MEMBER | kind::PRIVATE_MEMBER | kind::COMPUTED_MEMBER | kind::CALL => {
                self.next_child == 0 && self.in_chain
            }
            _ => false,
        }
    }
}

/// Row 8.
fn trees_are_bad(file: &RecordFile) -> bool {
    let mut nodes = file.nodes.iter();
    let every_tree_is_good = (0..trees_of(file)).all(|_| tree_is_good(&mut nodes));
    !(every_tree_is_good && nodes.len() == 0)
}

/// How many trees the statements say there are.
fn trees_of(file: &RecordFile) -> usize {
    let expressions = file.statements.iter().filter(|it| it.kind == statement::EXPRESSION).count();
    let initializers = file.declarators.iter().filter(|it| it.initializer == 1).count();
    expressions + initializers
}

/// Reads one tree off the front of the nodes.
fn tree_is_good(nodes: &mut std::slice::Iter<Node>) -> bool {
    let mut above: Vec<Open> = Vec::new();
    loop {
        let Some(&node) = nodes.next() else { return false };
        let (wanted, in_chain) = match above.last() {
            Some(open) => (open.wanted(), open.child_is_in_chain()),
            None => (Wanted::Expression, false),
        };
        if !wanted.takes(node.kind) || (node.has(flag::OPTIONAL) && !in_chain) {
            return false;
        }
        above.push(Open { node, next_child: 0, in_chain });
        close_finished(&mut above);
        if above.is_empty() {
            return true;
        }
    }
}

/// Drops the nodes that have all their children, and counts each as a child of the node above it.
fn close_finished(above: &mut Vec<Open>) {
    while above.last().is_some_and(|open| open.next_child == open.node.children) {
        above.pop();
        if let Some(parent) = above.last_mut() {
            parent.next_child += 1;
        }
    }
}

/// Row 9.
fn a_name_is_declared_twice(file: &RecordFile) -> bool {
    let mut declared = vec![false; file.names.len()];
    let named = file.declarators.iter().filter(|it| it.name != NONE);
    named.into_iter().any(|it| std::mem::replace(&mut declared[usize::from(it.name)], true))
}

/// How often a name stands in the trees.
#[derive(Clone, Copy, Default)]
struct Uses {
    reads: u32,
    targets: u32,
}

/// Row 10.
fn counts_are_exceeded(file: &RecordFile) -> bool {
    let uses = count_uses(file);
    file.names.iter().zip(uses).any(|(name, uses)| {
        if name.is_unresolved() {
            false
        } else if name.is_recorded() {
            uses.reads > name.reads || uses.targets > name.writes
        } else {
            uses.targets > 0 && name.flags & name::MUTATED == 0
        }
    })
}

fn count_uses(file: &RecordFile) -> Vec<Uses> {
    let mut uses = vec![Uses::default(); file.names.len()];
    let mut target_is_read = false;
    for node in &file.nodes {
        // A target stands directly behind its assignment.
        if node.kind == kind::NAME {
            uses[usize::from(node.label)].reads += 1;
        } else if node.kind == kind::TARGET_NAME {
            uses[usize::from(node.label)].targets += 1;
            uses[usize::from(node.label)].reads += u32::from(target_is_read);
        }
        target_is_read = node.kind == kind::ASSIGNMENT && node.has(flag::COMPOUND);
    }
    uses
}
