//! The statements of a random file.

use super::Mood;
use crate::build::{Line, Tree};
use crate::random::Random;
use crate::record::*;

/// Writes statements whose trees use the names declared before.
pub struct Writer<'r> {
    pub random: &'r mut Random,
    pub mood: Mood,
    /// Whether a name is unresolved, for each name.
    pub unresolved: Vec<bool>,
    /// Names that are declared and not used yet.
    pub unused: Vec<u16>,
    /// Names that are still to be declared, the next one last.
    to_declare: Vec<u16>,
    /// How many names there are to declare; the others follow them.
    pub declared: usize,
    pub position: u32,
}

/// No file has more statements.
const MOST_LINES: usize = 14;

impl<'r> Writer<'r> {
    pub fn new(random: &'r mut Random, mood: Mood, names: &[Name], declared: usize) -> Self {
        let count = u16::try_from(declared).expect("there are few");
        let position = if random.percent(2) { 3_000_000_000 } else { 0 };
        Self {
            random,
            mood,
            unresolved: names.iter().map(Name::is_unresolved).collect(),
            unused: Vec::new(),
            to_declare: (0..count).rev().collect(),
            declared,
            position,
        }
    }

    pub fn lines(&mut self, size: usize) -> Vec<Line> {
        let mut lines = Vec::new();
        let budget = self.random.between(1, size);
        while lines.len() < MOST_LINES && (!self.to_declare.is_empty() || self.random.percent(55)) {
            lines.push(self.line(budget));
        }
        if lines.is_empty() {
            lines.push(Line::Other);
        }
        lines
    }

    fn line(&mut self, budget: usize) -> Line {
        let choice = self.random.below(100);
        if choice < 65 && !self.to_declare.is_empty() {
            self.declaration()
        } else if choice < 95 {
            let nodes = self.random.between(1, budget);
            Line::Expression(self.expression(nodes))
        } else if choice < 98 {
            let kind = self.random.pick(DECLARATIONS);
            Line::Declaration { kind, declarators: Vec::new() }
        } else {
            Line::Other
        }
    }

    fn declaration(&mut self) -> Line {
        let kind = self.random.pick(DECLARATIONS);
        let count = self.random.pick(&[1, 1, 1, 2, 2, 3, 4]);
        let declarators = (0..count).filter_map(|_| self.declarator()).collect();
        Line::Declaration { kind, declarators }
    }

    fn declarator(&mut self) -> Option<(u16, Option<Tree>)> {
        let name = self.to_declare.pop()?;
        let nodes = self.random.pick(&[1, 1, 1, 2, 2, 3, 4, 6]);
        let init = if self.random.percent(95) { Some(self.expression(nodes)) } else { None };
        if self.random.percent(4) {
            return Some((NONE, init));
        }
        self.unused.push(name);
        Some((name, init))
    }
}

/// The kinds of declaration, the frequent ones more than once.
const DECLARATIONS: &[u8] = &[
    statement::VAR,
    statement::VAR,
    statement::VAR,
    statement::VAR,
    statement::LET,
    statement::LET,
    statement::LET,
    statement::LET,
    statement::LET,
    statement::LET,
    statement::CONST,
    statement::CONST,
    statement::CONST,
    statement::CONST,
    statement::CONST,
    statement::CONST,
    statement::CONST,
    statement::CONST,
    statement::USING,
    statement::AWAIT_USING,
];
