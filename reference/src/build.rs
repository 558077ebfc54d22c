//! Files put together from trees: what the scripts and the generator write, before it is flat.

use crate::record::*;

/// A node with its children.
#[derive(Clone, Debug)]
pub struct Tree {
    pub kind: u8,
    pub flags: u8,
    pub label: u16,
    pub position: u32,
    pub children: Vec<Tree>,
}

impl Tree {
    pub fn new(kind: u8, children: Vec<Tree>) -> Self {
        Self { kind, flags: 0, label: 0, position: 0, children }
    }

    pub fn leaf(kind: u8) -> Self {
        Self::new(kind, Vec::new())
    }

    pub fn name(number: u16) -> Self {
        Self::leaf(kind::NAME).labelled(number)
    }

    pub fn literal() -> Self {
        Self::leaf(kind::LITERAL)
    }

    pub fn flagged(mut self, flags: u8) -> Self {
        self.flags |= flags;
        self
    }

    pub fn marked(self) -> Self {
        self.flagged(flag::MARK)
    }

    pub fn labelled(mut self, label: u16) -> Self {
        self.label = label;
        self
    }

    pub fn at(mut self, position: u32) -> Self {
        self.position = position;
        self
    }

    fn flatten(&self, out: &mut Vec<Node>) {
        out.push(Node {
            kind: self.kind,
            flags: self.flags,
            label: self.label,
            children: u16::try_from(self.children.len()).expect("a list fits its count"),
            zero: 0,
            position: self.position,
        });
        self.children.iter().for_each(|child| child.flatten(out));
    }
}

/// A statement with its trees.
#[derive(Clone, Debug)]
pub enum Line {
    Declaration { kind: u8, declarators: Vec<(u16, Option<Tree>)> },
    Expression(Tree),
    Other,
}

impl Line {
    /// A declaration of one name with an initializer.
    pub fn declare(kind: u8, name: u16, init: Tree) -> Self {
        Self::Declaration { kind, declarators: vec![(name, Some(init))] }
    }
}

/// A name that stands in the outermost scope and is neither written nor recorded.
pub const PLAIN_NAME: Name = Name { flags: 0, scope: 0, reads: 0, writes: 0 };
pub const UNRESOLVED_NAME: Name =
    Name { flags: name::UNRESOLVED, scope: NONE, reads: 0, writes: 0 };
pub const ROOT_SCOPE: Scope = Scope { parent: NONE, flags: 0 };

/// A block-scoped name of the outermost scope with so many reads.
pub const fn declared_name(reads: u32) -> Name {
    Name { flags: name::BLOCK_SCOPED | name::RECORDED, scope: 0, reads, writes: 0 }
}

/// A file without statements: no option, one scope, no frame, no `this` scope.
pub fn empty_file(names: Vec<Name>) -> RecordFile {
    RecordFile {
        options: 0,
        current_scope: 0,
        this_scope: NONE,
        names,
        scopes: vec![ROOT_SCOPE],
        frames: Vec::new(),
        nodes: Vec::new(),
        declarators: Vec::new(),
        statements: Vec::new(),
    }
}

/// The file with one more statement.
pub fn push_line(file: &mut RecordFile, line: &Line) {
    let (kind, declarators) = match line {
        Line::Declaration { kind, declarators } => {
            for (name, init) in declarators {
                let initializer = u16::from(init.is_some());
                file.declarators.push(Declarator { name: *name, initializer });
                init.iter().for_each(|tree| tree.flatten(&mut file.nodes));
            }
            (*kind, u16::try_from(declarators.len()).expect("a list fits its count"))
        }
        Line::Expression(tree) => {
            tree.flatten(&mut file.nodes);
            (statement::EXPRESSION, 0)
        }
        Line::Other => (statement::OTHER, 0),
    };
    file.statements.push(Statement { kind, zero: 0, declarators });
}

/// A file with one scope and these names and statements.
pub fn file_of(names: Vec<Name>, lines: &[Line]) -> RecordFile {
    let mut file = empty_file(names);
    lines.iter().for_each(|line| push_line(&mut file, line));
    file
}

/// Room enough for the result of any file of this length and these declarators.
pub fn room_for(file: &[u8], declarators: usize) -> usize {
    file.len() + crate::refusal::ROOM_PER_DECLARATOR * declarators
}
