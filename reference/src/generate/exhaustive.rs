//! Every tree of up to so many nodes, over a small set of names, behind one declarator.

use crate::build::{PLAIN_NAME, UNRESOLVED_NAME, declared_name, empty_file};
use crate::record::*;

/// The declared name, which the tree may hold once.
const SEARCHED: u16 = 0;
const SETTLED: u16 = 1;
const UNRESOLVED: u16 = 2;
/// A resolved name that is written to.
const WRITTEN: u16 = 3;

/// What may stand at a place of a tree.
#[derive(Clone, Copy, PartialEq, Eq)]
enum Place {
    Expression,
    /// An expression that reaches a chain by first children: it may be optional.
    InChain,
    ChainElement,
    Target,
    Argument,
    ArrayItem,
    ObjectItem,
    ShorthandName,
}

const PLACES: [Place; 8] = [
    Place::Expression,
    Place::InChain,
    Place::ChainElement,
    Place::Target,
    Place::Argument,
    Place::ArrayItem,
    Place::ObjectItem,
    Place::ShorthandName,
];

/// A tree, flat.
type Row = Vec<Node>;

/// A root with the places of its children.
struct Head {
    node: Node,
    places: Vec<Place>,
}

fn head(kind: u8, flags: u8, label: u16, places: &[Place]) -> Head {
    let children = u16::try_from(places.len()).expect("there are at most three");
    let node = Node { kind, flags, label, children, zero: 0, position: 0 };
    Head { node, places: places.to_vec() }
}

/// A head for each choice among these flags.
fn heads(kind: u8, flags: &[u8], places: &[Place]) -> Vec<Head> {
    flags.iter().map(|&flags| head(kind, flags, 0, places)).collect()
}

const NO_FLAG: &[u8] = &[0];
const MARKS: &[u8] = &[0, flag::MARK];
const DEFINITIONS: &[u8] = &[0, flag::ANONYMOUS];
const CLASSES: &[u8] = &[0, flag::MARK, flag::ANONYMOUS, flag::MARK | flag::ANONYMOUS];
const OPTIONALS: &[u8] = &[0, flag::MARK, flag::OPTIONAL, flag::MARK | flag::OPTIONAL];
const ASSIGNMENTS: &[u8] = &[0, flag::MARK, flag::COMPOUND, flag::MARK | flag::COMPOUND];

/// Every root with so many children that may stand at the place.
fn heads_at(place: Place, children: usize) -> Vec<Head> {
    match place {
        Place::Expression => {
            [plain_heads(children), link_heads(MARKS, Place::Expression, children)]
        }
        Place::InChain => [plain_heads(children), link_heads(OPTIONALS, Place::InChain, children)],
        Place::ChainElement => [Vec::new(), link_heads(OPTIONALS, Place::InChain, children)],
        Place::Target => [target_heads(children), Vec::new()],
        Place::Argument => [heads_at(Place::Expression, children), spread_heads(children)],
        Place::ArrayItem => [heads_at(Place::Argument, children), elision_heads(children)],
        Place::ObjectItem => [property_heads(children), spread_heads(children)],
        Place::ShorthandName => [name_heads(children), Vec::new()],
    }
    .into_iter()
    .flatten()
    .collect()
}

fn name_heads(children: usize) -> Vec<Head> {
    if children != 0 {
        return Vec::new();
    }
    vec![
        head(kind::NAME, 0, SEARCHED, &[]),
        head(kind::NAME, 0, SETTLED, &[]),
        head(kind::NAME, 0, UNRESOLVED, &[]),
        head(kind::NAME, flag::MARK, UNRESOLVED, &[]),
    ]
}

/// Members and calls, with the flags and the place of the first child that the place allows.
fn link_heads(flags: &[u8], first: Place, children: usize) -> Vec<Head> {
    let own = match children {
        0 => return Vec::new(),
        1 => vec![
            heads(kind::STATIC_MEMBER, flags, &[first]),
            heads(kind::PRIVATE_MEMBER, flags, &[first]),
        ],
        2 => vec![heads(kind::COMPUTED_MEMBER, flags, &[first, Place::Expression])],
        _ => Vec::new(),
    };
    let mut places = vec![first];
    places.resize(children, Place::Argument);
    own.into_iter().flatten().chain(heads(kind::CALL, flags, &places)).collect()
}

/// The expressions that are neither members nor calls.
fn plain_heads(children: usize) -> Vec<Head> {
    let e = Place::Expression;
    let lists = list_heads(children);
    let own = match children {
        0 => vec![
            name_heads(0),
            heads(kind::OTHER, MARKS, &[]),
            heads(kind::LITERAL, NO_FLAG, &[]),
            heads(kind::FUNCTION, DEFINITIONS, &[]),
            heads(kind::CLASS, CLASSES, &[]),
            heads(kind::THIS, NO_FLAG, &[]),
            heads(kind::YIELD, MARKS, &[]),
        ],
        1 => vec![
            heads(kind::AWAIT, MARKS, &[e]),
            heads(kind::YIELD, MARKS, &[e]),
            heads(kind::IMPORT, MARKS, &[e]),
            unary_heads(),
            heads(kind::CHAIN, NO_FLAG, &[Place::ChainElement]),
            heads(kind::PRIVATE_IN, MARKS, &[e]),
        ],
        2 => vec![
            heads(kind::BINARY, MARKS, &[e, e]),
            heads(kind::LOGICAL, MARKS, &[e, e]),
            heads(kind::ASSIGNMENT, ASSIGNMENTS, &[Place::Target, e]),
        ],
        3 => vec![heads(kind::CONDITIONAL, MARKS, &[e, e, e])],
        _ => Vec::new(),
    };
    own.into_iter().flatten().chain(lists).collect()
}

/// The kinds with any number of children.
fn list_heads(children: usize) -> Vec<Head> {
    let expressions = vec![Place::Expression; children];
    let mut out = heads(kind::TEMPLATE, MARKS, &expressions);
    out.extend(heads(kind::ARRAY, MARKS, &vec![Place::ArrayItem; children]));
    out.extend(heads(kind::OBJECT, MARKS, &vec![Place::ObjectItem; children]));
    if children >= 1 {
        let mut places = vec![Place::Argument; children];
        places[0] = Place::Expression;
        out.extend(heads(kind::NEW, MARKS, &places));
        out.extend(heads(kind::TAGGED_TEMPLATE, MARKS, &expressions));
    }
    if children >= 2 {
        out.extend(heads(kind::SEQUENCE, NO_FLAG, &expressions));
    }
    out
}

/// An ordinary operator, `delete` and `typeof`.
fn unary_heads() -> Vec<Head> {
    let labels = [0, 1, 2];
    let with = |label: u16| {
        MARKS.iter().map(move |&flags| head(kind::UNARY, flags, label, &[Place::Expression]))
    };
    labels.into_iter().flat_map(with).collect()
}

fn target_heads(children: usize) -> Vec<Head> {
    let e = Place::Expression;
    match children {
        0 => vec![
            head(kind::TARGET_NAME, 0, WRITTEN, &[]),
            head(kind::TARGET_NAME, 0, UNRESOLVED, &[]),
            head(kind::TARGET_NAME, flag::MARK, UNRESOLVED, &[]),
            head(kind::OPAQUE_TARGET, 0, 0, &[]),
            head(kind::OPAQUE_TARGET, flag::MARK, 0, &[]),
        ],
        1 => {
            let mut out = heads(kind::STATIC_MEMBER, MARKS, &[e]);
            out.extend(heads(kind::PRIVATE_MEMBER, MARKS, &[e]));
            out
        }
        2 => heads(kind::COMPUTED_MEMBER, MARKS, &[e, e]),
        _ => Vec::new(),
    }
}

fn spread_heads(children: usize) -> Vec<Head> {
    if children == 1 { heads(kind::SPREAD, MARKS, &[Place::Expression]) } else { Vec::new() }
}

fn elision_heads(children: usize) -> Vec<Head> {
    if children == 0 { heads(kind::ELISION, NO_FLAG, &[]) } else { Vec::new() }
}

fn property_heads(children: usize) -> Vec<Head> {
    let e = Place::Expression;
    match children {
        1 => {
            let mut out =
                heads(kind::PROPERTY, &[0, flag::PROTO, flag::COMPUTED | flag::PROTO], &[e]);
            let shorthands = [flag::SHORTHAND, flag::SHORTHAND | flag::PROTO];
            out.extend(heads(kind::PROPERTY, &shorthands, &[Place::ShorthandName]));
            out
        }
        2 => heads(kind::PROPERTY, &[flag::COMPUTED], &[e, e]),
        _ => Vec::new(),
    }
}

/// The trees of each size, by place.
struct Sizes(Vec<[Vec<Row>; PLACES.len()]>);

impl Sizes {
    /// All trees of up to so many nodes.
    fn up_to(nodes: usize) -> Self {
        let mut sizes = Self(Vec::new());
        for size in 1..=nodes {
            let next = PLACES.map(|place| {
                let mut rows = Vec::new();
                sizes.each(place, size, &mut |row| rows.push(row.to_vec()));
                rows
            });
            sizes.0.push(next);
        }
        sizes
    }

    fn of(&self, place: Place, size: usize) -> &[Row] {
        &self.0[size - 1][place as usize]
    }

    /// Every tree of so many nodes at the place; smaller ones are at hand.
    fn each(&self, place: Place, size: usize, emit: &mut dyn FnMut(&[Node])) {
        for children in 0..size {
            for head in heads_at(place, children) {
                let mut row = vec![head.node];
                self.fill(&head.places, size - 1, &mut row, emit);
            }
        }
    }

    /// Every way of filling the places with so many nodes, put behind the row.
    fn fill(&self, places: &[Place], nodes: usize, row: &mut Row, emit: &mut dyn FnMut(&[Node])) {
        let Some((&place, later)) = places.split_first() else {
            if nodes == 0 && searched_names(row) <= 1 {
                emit(row);
            }
            return;
        };
        let before = row.len();
        let sizes = if later.is_empty() { nodes..=nodes } else { 1..=nodes };
        for size in sizes {
            if size == 0 || nodes - size < later.len() {
                continue;
            }
            for child in self.of(place, size) {
                row.extend_from_slice(child);
                self.fill(later, nodes - size, row, emit);
                row.truncate(before);
            }
        }
    }
}

fn searched_names(row: &[Node]) -> usize {
    row.iter().filter(|it| it.kind == kind::NAME && it.label == SEARCHED).count()
}

/// How many initializers there are.
pub const INITIALIZERS: usize = 8;

/// Literal, function, settled name, unresolved name, effect, member, member with effect, chain.
fn initializer(number: usize) -> Row {
    let leaf = |kind: u8, label: u16| head(kind, 0, label, &[]).node;
    let over = |kind: u8, flags: u8| head(kind, flags, 0, &[Place::Expression]).node;
    let settled = leaf(kind::NAME, SETTLED);
    match number {
        0 => vec![leaf(kind::LITERAL, 0)],
        1 => vec![leaf(kind::FUNCTION, 0)],
        2 => vec![settled],
        3 => vec![leaf(kind::NAME, UNRESOLVED)],
        4 => vec![over(kind::CALL, flag::MARK), settled],
        5 => vec![over(kind::STATIC_MEMBER, 0), settled],
        6 => vec![over(kind::PRIVATE_MEMBER, flag::MARK), settled],
        _ => vec![over(kind::CHAIN, 0), over(kind::STATIC_MEMBER, flag::OPTIONAL), settled],
    }
}

/// `let v = <initializer>; <tree>`.
fn file_with(initializer: &[Node], tree: &[Node]) -> RecordFile {
    let written = Name { flags: name::MUTATED, ..PLAIN_NAME };
    let mut file = empty_file(vec![declared_name(1), PLAIN_NAME, UNRESOLVED_NAME, written]);
    file.nodes.extend_from_slice(initializer);
    file.nodes.extend_from_slice(tree);
    for (place, node) in (10..).zip(&mut file.nodes) {
        node.position = place;
    }
    file.declarators.push(Declarator { name: SEARCHED, initializer: 1 });
    file.statements.push(Statement { kind: statement::LET, zero: 0, declarators: 1 });
    file.statements.push(Statement { kind: statement::EXPRESSION, zero: 0, declarators: 0 });
    file
}

/// A file and the number of its initializer.
pub type Emit<'e> = &'e mut dyn FnMut(usize, RecordFile);

/// Every file whose searched tree has up to so many nodes.
pub fn small_files(nodes: usize, emit: Emit) {
    each_tree(nodes, &mut |tree| with_each_initializer(tree, emit));
}

/// Every file whose searched tree is `(<tree>, v)` or `[<tree>, v]`, where the first has up to so
/// many nodes and doesn't hold the name: whether the name is reached tells whether the tree is
/// passed.
pub fn passed_files(nodes: usize, emit: Emit) {
    let last = head(kind::NAME, 0, SEARCHED, &[]).node;
    each_tree(nodes, &mut |tree| {
        if searched_names(tree) == 0 {
            for of in [kind::SEQUENCE, kind::ARRAY] {
                let root = Node { children: 2, ..head(of, 0, 0, &[]).node };
                with_each_initializer(&[&[root], tree, &[last]].concat(), emit);
            }
        }
    });
}

fn each_tree(nodes: usize, emit: &mut dyn FnMut(&[Node])) {
    let sizes = Sizes::up_to(nodes - 1);
    for size in 1..=nodes {
        sizes.each(Place::Expression, size, emit);
    }
}

fn with_each_initializer(tree: &[Node], emit: Emit) {
    for number in 0..INITIALIZERS {
        emit(number, file_with(&initializer(number), tree));
    }
}
