//! The record file: its kinds of record, and how they stand in bytes. Nothing is judged here.

/// No scope, no name, no parent.
pub const NONE: u16 = 65535;
/// A frame whose `this` is never initialised; as a node's position it is refused.
pub const NEVER: u32 = 4294967295;
pub const VERSION: u16 = 1;
pub const LETTERS: &[u8; 3] = b"WSF";

pub const HEADER_BYTES: usize = 24;
pub const NAME_BYTES: usize = 12;
pub const SCOPE_BYTES: usize = 4;
pub const FRAME_BYTES: usize = 8;
pub const NODE_BYTES: usize = 12;
pub const DECLARATOR_BYTES: usize = 4;
pub const STATEMENT_BYTES: usize = 4;

/// Bits of the header's options.
pub mod option {
    pub const SCRIPT: u8 = 1;
    pub const KEEP_FUNCTION_NAMES: u8 = 2;
    pub const KEEP_CLASS_NAMES: u8 = 4;
    pub const LITERAL_ONLY: u8 = 8;
    pub const ALL: u8 = 15;
}

/// Bits of a name's facts.
pub mod name {
    pub const BLOCK_SCOPED: u16 = 1;
    pub const IMPORT: u16 = 2;
    pub const CATCH: u16 = 4;
    pub const VAR: u16 = 8;
    pub const RECORDED: u16 = 16;
    pub const OBSERVABLE: u16 = 32;
    pub const MUTATED: u16 = 64;
    pub const UNRESOLVED: u16 = 128;
    pub const EVAL: u16 = 256;
    pub const ALL: u16 = 511;
}

/// Bits of a scope.
pub mod scope {
    pub const FUNCTION: u16 = 1;
    pub const DIRECT_EVAL: u16 = 2;
    pub const ALL: u16 = 3;
}

/// Kinds of node.
pub mod kind {
    pub const OTHER: u8 = 0;
    pub const LITERAL: u8 = 1;
    pub const FUNCTION: u8 = 2;
    pub const CLASS: u8 = 3;
    pub const NAME: u8 = 4;
    pub const THIS: u8 = 5;
    pub const AWAIT: u8 = 6;
    pub const YIELD: u8 = 7;
    pub const IMPORT: u8 = 8;
    pub const UNARY: u8 = 9;
    pub const STATIC_MEMBER: u8 = 10;
    pub const PRIVATE_MEMBER: u8 = 11;
    pub const COMPUTED_MEMBER: u8 = 12;
    pub const CHAIN: u8 = 13;
    pub const CALL: u8 = 14;
    pub const NEW: u8 = 15;
    pub const BINARY: u8 = 16;
    pub const LOGICAL: u8 = 17;
    pub const PRIVATE_IN: u8 = 18;
    pub const CONDITIONAL: u8 = 19;
    pub const ASSIGNMENT: u8 = 20;
    pub const ARRAY: u8 = 21;
    pub const OBJECT: u8 = 22;
    pub const TEMPLATE: u8 = 23;
    pub const TAGGED_TEMPLATE: u8 = 24;
    pub const SPREAD: u8 = 25;
    pub const PROPERTY: u8 = 26;
    pub const ELISION: u8 = 27;
    pub const SEQUENCE: u8 = 28;
    pub const TARGET_NAME: u8 = 29;
    pub const OPAQUE_TARGET: u8 = 30;
}

/// Bits of a node.
pub mod flag {
    pub const MARK: u8 = 1;
    pub const OPTIONAL: u8 = 2;
    pub const ANONYMOUS: u8 = 4;
    pub const COMPOUND: u8 = 8;
    pub const SHORTHAND: u8 = 16;
    pub const COMPUTED: u8 = 32;
    pub const PROTO: u8 = 64;
}

/// Kinds of statement.
pub mod statement {
    pub const VAR: u8 = 0;
    pub const LET: u8 = 1;
    pub const CONST: u8 = 2;
    pub const USING: u8 = 3;
    pub const AWAIT_USING: u8 = 4;
    pub const EXPRESSION: u8 = 5;
    pub const OTHER: u8 = 6;
}

#[derive(Clone, Copy, PartialEq, Eq, Debug)]
pub struct Name {
    pub flags: u16,
    pub scope: u16,
    pub reads: u32,
    pub writes: u32,
}

impl Name {
    pub fn is_unresolved(&self) -> bool {
        self.flags & name::UNRESOLVED != 0
    }

    pub fn is_recorded(&self) -> bool {
        self.flags & name::RECORDED != 0
    }
}

#[derive(Clone, Copy, PartialEq, Eq, Debug)]
pub struct Scope {
    pub parent: u16,
    pub flags: u16,
}

#[derive(Clone, Copy, PartialEq, Eq, Debug)]
pub struct Frame {
    pub scope: u16,
    pub zero: u16,
    pub initialised: u32,
}

#[derive(Clone, Copy, PartialEq, Eq, Debug)]
pub struct Node {
    pub kind: u8,
    pub flags: u8,
    pub label: u16,
    pub children: u16,
    pub zero: u16,
    pub position: u32,
}

impl Node {
    pub fn has(&self, bit: u8) -> bool {
        self.flags & bit != 0
    }
}

#[derive(Clone, Copy, PartialEq, Eq, Debug)]
pub struct Declarator {
    pub name: u16,
    pub initializer: u16,
}

#[derive(Clone, Copy, PartialEq, Eq, Debug)]
pub struct Statement {
    pub kind: u8,
    pub zero: u8,
    pub declarators: u16,
}

/// What the header says, the counts excepted when a file is written: those come from the parts.
#[derive(Clone, Copy, PartialEq, Eq, Debug)]
pub struct Header {
    pub options: u8,
    pub version: u16,
    pub names: u16,
    pub scopes: u16,
    pub frames: u16,
    pub nodes: u16,
    pub declarators: u16,
    pub statements: u16,
    pub current_scope: u16,
    pub this_scope: u16,
    pub zero: u16,
}

impl Header {
    /// The length of a file with these counts.
    pub fn file_bytes(&self) -> usize {
        HEADER_BYTES
            + usize::from(self.names) * NAME_BYTES
            + usize::from(self.scopes) * SCOPE_BYTES
            + usize::from(self.frames) * FRAME_BYTES
            + usize::from(self.nodes) * NODE_BYTES
            + usize::from(self.declarators) * DECLARATOR_BYTES
            + usize::from(self.statements) * STATEMENT_BYTES
    }
}

/// A whole file, its trees still flat.
#[derive(Clone, PartialEq, Eq, Debug)]
pub struct RecordFile {
    pub options: u8,
    pub current_scope: u16,
    pub this_scope: u16,
    pub names: Vec<Name>,
    pub scopes: Vec<Scope>,
    pub frames: Vec<Frame>,
    pub nodes: Vec<Node>,
    pub declarators: Vec<Declarator>,
    pub statements: Vec<Statement>,
}

/// Takes little-endian numbers off the front of a slice.
struct Bytes<'b>(&'b [u8]);

impl Bytes<'_> {
    fn take<const N: usize>(&mut self) -> [u8; N] {
        let (front, rest) = self.0.split_first_chunk::<N>().expect("the length was measured");
        self.0 = rest;
        *front
    }

    fn u8(&mut self) -> u8 {
        self.take::<1>()[0]
    }

    fn u16(&mut self) -> u16 {
        u16::from_le_bytes(self.take())
    }

    fn u32(&mut self) -> u32 {
        u32::from_le_bytes(self.take())
    }
}

/// The header of a file of at least 24 bytes, its letters passed over.
pub fn read_header(file: &[u8]) -> Header {
    let mut bytes = Bytes(&file[LETTERS.len()..]);
    Header {
        options: bytes.u8(),
        version: bytes.u16(),
        names: bytes.u16(),
        scopes: bytes.u16(),
        frames: bytes.u16(),
        nodes: bytes.u16(),
        declarators: bytes.u16(),
        statements: bytes.u16(),
        current_scope: bytes.u16(),
        this_scope: bytes.u16(),
        zero: bytes.u16(),
    }
}

/// The parts of a file whose length is as its header says.
pub fn read_parts(header: &Header, file: &[u8]) -> RecordFile {
    let mut bytes = Bytes(&file[HEADER_BYTES..]);
    let b = &mut bytes;
    RecordFile {
        options: header.options,
        current_scope: header.current_scope,
        this_scope: header.this_scope,
        names: many(header.names, b, |b| Name {
            flags: b.u16(),
            scope: b.u16(),
            reads: b.u32(),
            writes: b.u32(),
        }),
        scopes: many(header.scopes, b, |b| Scope { parent: b.u16(), flags: b.u16() }),
        frames: many(header.frames, b, |b| Frame {
            scope: b.u16(),
            zero: b.u16(),
            initialised: b.u32(),
        }),
        nodes: many(header.nodes, b, |b| Node {
            kind: b.u8(),
            flags: b.u8(),
            label: b.u16(),
            children: b.u16(),
            zero: b.u16(),
            position: b.u32(),
        }),
        declarators: many(header.declarators, b, |b| Declarator {
            name: b.u16(),
            initializer: b.u16(),
        }),
        statements: many(header.statements, b, |b| Statement {
            kind: b.u8(),
            zero: b.u8(),
            declarators: b.u16(),
        }),
    }
}

fn many<T>(count: u16, bytes: &mut Bytes, one: impl Fn(&mut Bytes) -> T) -> Vec<T> {
    (0..count).map(|_| one(bytes)).collect()
}

impl RecordFile {
    /// The header that goes with the parts.
    pub fn header(&self) -> Header {
        let count = |length: usize| u16::try_from(length).expect("a part fits its count");
        Header {
            options: self.options,
            version: VERSION,
            names: count(self.names.len()),
            scopes: count(self.scopes.len()),
            frames: count(self.frames.len()),
            nodes: count(self.nodes.len()),
            declarators: count(self.declarators.len()),
            statements: count(self.statements.len()),
            current_scope: self.current_scope,
            this_scope: self.this_scope,
            zero: 0,
        }
    }

    pub fn to_bytes(&self) -> Vec<u8> {
        let header = self.header();
        let mut out = Vec::with_capacity(header.file_bytes());
        write_header(&header, &mut out);
        self.names.iter().for_each(|it| write_name(it, &mut out));
        self.scopes.iter().for_each(|it| write_u16s(&[it.parent, it.flags], &mut out));
        self.frames.iter().for_each(|it| write_frame(it, &mut out));
        self.nodes.iter().for_each(|it| write_node(it, &mut out));
        self.declarators.iter().for_each(|it| write_u16s(&[it.name, it.initializer], &mut out));
        self.statements.iter().for_each(|it| write_statement(it, &mut out));
        out
    }
}

fn write_u16s(numbers: &[u16], out: &mut Vec<u8>) {
    numbers.iter().for_each(|number| out.extend(number.to_le_bytes()));
}

/// Writes a header whatever it says.
pub fn write_header(header: &Header, out: &mut Vec<u8>) {
    out.extend(LETTERS);
    out.push(header.options);
    let numbers = [
        header.version,
        header.names,
        header.scopes,
        header.frames,
        header.nodes,
        header.declarators,
        header.statements,
        header.current_scope,
        header.this_scope,
        header.zero,
    ];
    write_u16s(&numbers, out);
}

fn write_name(it: &Name, out: &mut Vec<u8>) {
    write_u16s(&[it.flags, it.scope], out);
    out.extend(it.reads.to_le_bytes());
    out.extend(it.writes.to_le_bytes());
}

fn write_frame(it: &Frame, out: &mut Vec<u8>) {
    write_u16s(&[it.scope, it.zero], out);
    out.extend(it.initialised.to_le_bytes());
}

fn write_node(it: &Node, out: &mut Vec<u8>) {
    out.extend([it.kind, it.flags]);
    write_u16s(&[it.label, it.children, it.zero], out);
    out.extend(it.position.to_le_bytes());
}

fn write_statement(it: &Statement, out: &mut Vec<u8>) {
    out.extend([it.kind, it.zero]);
    write_u16s(&[it.declarators], out);
}
