//! The trees of a random file.

use super::lines::Writer;
use crate::build::Tree;
use crate::record::*;

impl Writer<'_> {
    fn step(&mut self) -> u32 {
        self.position += self.random.u32_below(9) + 1;
        self.position
    }

    fn leaf(&mut self) -> Tree {
        let position = self.step();
        let leaf = match self.random.below(40) {
            0..=21 => self.name_leaf(),
            22..=29 => Tree::literal(),
            30..=33 => Tree::leaf(kind::FUNCTION).flagged(self.random.bit(50, flag::ANONYMOUS)),
            34 | 35 => {
                let anonymous = self.random.bit(50, flag::ANONYMOUS);
                Tree::leaf(kind::CLASS).flagged(anonymous | self.mark())
            }
            36 | 37 => Tree::leaf(kind::THIS),
            _ => Tree::leaf(kind::OTHER).flagged(self.mark()),
        };
        leaf.at(position)
    }

    fn name_leaf(&mut self) -> Tree {
        if !self.unused.is_empty() && self.random.percent(70) {
            let last = self.unused.len() - 1;
            let index = match self.random.below(10) {
                0..=5 => last,
                6 | 7 => 0,
                _ => self.random.below(last + 1),
            };
            let name = self.unused[index];
            if self.random.percent(97) {
                self.unused.remove(index);
            }
            return Tree::name(name);
        }
        let number = self.other_name();
        Tree::name(number).flagged(self.mark_of_name(number))
    }

    /// A name that isn't there to be declared.
    fn other_name(&mut self) -> u16 {
        let others = self.unresolved.len() - self.declared;
        let index = self.declared + self.random.below(others);
        u16::try_from(index).expect("there are few")
    }

    /// Only unresolved names may carry a mark.
    fn mark_of_name(&mut self, number: u16) -> u8 {
        if self.unresolved[usize::from(number)] { self.mark() } else { 0 }
    }

    fn mark(&mut self) -> u8 {
        self.random.bit(self.mood.marks, flag::MARK)
    }

    /// A tree of about so many nodes.
    pub fn expression(&mut self, nodes: usize) -> Tree {
        if nodes <= 1 {
            return self.leaf();
        }
        let position = self.step();
        let kind = match self.random.pick(PARENTS) {
            kind if self.mood.calm && has_effect(kind) => self.random.pick(CALM_PARENTS),
            kind => kind,
        };
        self.parent(kind, nodes - 1).at(position)
    }

    fn parent(&mut self, kind: u8, rest: usize) -> Tree {
        let mark = self.mark();
        match kind {
            kind::CHAIN => {
                let element = self.chain_element(rest);
                Tree::new(kind, vec![element])
            }
            kind::CALL | kind::NEW => {
                let calls = if self.mood.calm { 10 } else { 40 };
                let mark = mark | self.random.bit(calls, flag::MARK);
                let mut children = vec![self.callee()];
                children.extend(self.arguments(rest.saturating_sub(1)));
                Tree::new(kind, children).flagged(mark)
            }
            kind::UNARY => {
                let label = self.random.pick(&[0, 1, 2, 2, 3]);
                Tree::new(kind, self.parts(rest, 1)).labelled(label).flagged(mark)
            }
            kind::ASSIGNMENT => self.assignment(rest),
            kind::ARRAY => self.array(rest),
            kind::OBJECT => self.object(rest),
            kind::TAGGED_TEMPLATE => {
                let mut children = vec![self.callee()];
                let count = self.random.below(3);
                children.extend(self.parts(rest.saturating_sub(1), count));
                Tree::new(kind, children).flagged(mark)
            }
            kind::SEQUENCE => {
                let count = self.random.between(2, 3);
                Tree::new(kind, self.parts(rest, count))
            }
            _ => {
                let count = self.child_count(kind);
                Tree::new(kind, self.parts(rest, count)).flagged(mark)
            }
        }
    }

    fn child_count(&mut self, kind: u8) -> usize {
        match kind {
            kind::COMPUTED_MEMBER | kind::BINARY | kind::LOGICAL => 2,
            kind::CONDITIONAL => 3,
            kind::YIELD => self.random.below(2),
            kind::TEMPLATE => self.random.below(4),
            _ => 1,
        }
    }

    /// A name more often than not.
    fn callee(&mut self) -> Tree {
        if self.random.percent(60) {
            self.leaf()
        } else {
            let nodes = self.random.between(1, 3);
            self.expression(nodes)
        }
    }

    /// A member or a call whose optional bits all reach the chain above.
    fn chain_element(&mut self, nodes: usize) -> Tree {
        let position = self.step();
        let kinds = [kind::STATIC_MEMBER, kind::PRIVATE_MEMBER, kind::COMPUTED_MEMBER, kind::CALL];
        let kind = self.random.pick(&kinds);
        let flags = self.mark() | self.random.bit(50, flag::OPTIONAL);
        let first = if nodes > 2 && self.random.percent(45) {
            self.chain_element(nodes - 1)
        } else {
            self.callee()
        };
        let mut children = vec![first];
        if kind == kind::COMPUTED_MEMBER {
            children.push(self.expression(nodes.saturating_sub(2)));
        } else if kind == kind::CALL {
            children.extend(self.arguments(nodes.saturating_sub(2)));
        }
        Tree::new(kind, children).flagged(flags).at(position)
    }

    fn assignment(&mut self, rest: usize) -> Tree {
        let flags = self.mark() | self.random.bit(30, flag::COMPOUND);
        let target = self.target();
        let value = self.expression(rest.saturating_sub(1));
        Tree::new(kind::ASSIGNMENT, vec![target, value]).flagged(flags)
    }

    fn target(&mut self) -> Tree {
        let position = self.step();
        let mark = self.mark();
        let target = match self.random.below(10) {
            0..=2 => {
                let number = self.target_name();
                let mark = self.mark_of_name(number);
                Tree::leaf(kind::TARGET_NAME).labelled(number).flagged(mark)
            }
            3 => Tree::leaf(kind::OPAQUE_TARGET).flagged(mark),
            4..=6 => {
                let kind = self.random.pick(&[kind::STATIC_MEMBER, kind::PRIVATE_MEMBER]);
                Tree::new(kind, vec![self.target_part()]).flagged(mark)
            }
            _ => {
                let parts = vec![self.target_part(), self.target_part()];
                Tree::new(kind::COMPUTED_MEMBER, parts).flagged(mark)
            }
        };
        target.at(position)
    }

    /// Now and then a name that is there to be declared.
    fn target_name(&mut self) -> u16 {
        if self.random.percent(10) {
            self.random.u16_below(self.declared)
        } else {
            self.other_name()
        }
    }

    fn target_part(&mut self) -> Tree {
        match self.random.below(10) {
            0..=2 => {
                let position = self.step();
                Tree::leaf(kind::THIS).at(position)
            }
            3 => self.expression(2),
            _ => self.leaf(),
        }
    }

    fn arguments(&mut self, nodes: usize) -> Vec<Tree> {
        let count = if nodes == 0 { 0 } else { self.random.below(4) };
        let items = self.parts(nodes, count);
        items.into_iter().map(|item| self.sometimes_spread(item)).collect()
    }

    fn sometimes_spread(&mut self, item: Tree) -> Tree {
        if self.random.percent(10) { self.spread(item) } else { item }
    }

    fn spread(&mut self, item: Tree) -> Tree {
        let position = self.step();
        Tree::new(kind::SPREAD, vec![item]).flagged(self.mark()).at(position)
    }

    fn array(&mut self, rest: usize) -> Tree {
        let mut children = Vec::new();
        for item in self.arguments(rest) {
            if self.random.percent(12) {
                let position = self.step();
                children.push(Tree::leaf(kind::ELISION).at(position));
            }
            children.push(item);
        }
        Tree::new(kind::ARRAY, children).flagged(self.random.bit(10, flag::MARK))
    }

    fn object(&mut self, rest: usize) -> Tree {
        let count = self.random.below(4);
        let values = self.parts(rest, count);
        let children = values.into_iter().map(|value| self.object_item(value)).collect();
        Tree::new(kind::OBJECT, children).flagged(self.random.bit(10, flag::MARK))
    }

    fn object_item(&mut self, value: Tree) -> Tree {
        let choice = self.random.below(100);
        if choice < 10 {
            return self.spread(value);
        }
        let position = self.step();
        let (flags, children) = if choice < 20 {
            (flag::COMPUTED, vec![self.leaf(), value])
        } else if choice < 26 {
            (flag::COMPUTED | flag::PROTO, vec![value])
        } else if value.kind == kind::NAME && choice < 80 {
            (flag::SHORTHAND | self.random.bit(30, flag::PROTO), vec![value])
        } else {
            (self.random.bit(10, flag::PROTO), vec![value])
        };
        Tree::new(kind::PROPERTY, children).flagged(flags).at(position)
    }

    /// So many trees that share the nodes.
    fn parts(&mut self, mut nodes: usize, count: usize) -> Vec<Tree> {
        let mut out = Vec::new();
        for left in (1..=count).rev() {
            let share =
                if left == 1 { nodes } else { self.random.between(1, (nodes / left).max(1)) };
            out.push(self.expression(share));
            nodes = nodes.saturating_sub(share);
        }
        out
    }
}

/// Whether nodes of the kind have an effect whatever they hold.
fn has_effect(of: u8) -> bool {
    matches!(of, kind::AWAIT | kind::YIELD | kind::IMPORT | kind::ASSIGNMENT)
}

/// What takes the place of a kind with an effect.
const CALM_PARENTS: &[u8] = &[kind::ARRAY, kind::BINARY, kind::SEQUENCE, kind::TEMPLATE];

/// The kinds that have children, the frequent ones more than once.
const PARENTS: &[u8] = &[
    kind::AWAIT,
    kind::YIELD,
    kind::IMPORT,
    kind::UNARY,
    kind::UNARY,
    kind::STATIC_MEMBER,
    kind::STATIC_MEMBER,
    kind::PRIVATE_MEMBER,
    kind::COMPUTED_MEMBER,
    kind::CHAIN,
    kind::CHAIN,
    kind::CALL,
    kind::CALL,
    kind::CALL,
    kind::NEW,
    kind::BINARY,
    kind::BINARY,
    kind::LOGICAL,
    kind::LOGICAL,
    kind::PRIVATE_IN,
    kind::CONDITIONAL,
    kind::CONDITIONAL,
    kind::ASSIGNMENT,
    kind::ASSIGNMENT,
    kind::ASSIGNMENT,
    kind::ARRAY,
    kind::ARRAY,
    kind::OBJECT,
    kind::OBJECT,
    kind::OBJECT,
    kind::TEMPLATE,
    kind::TAGGED_TEMPLATE,
    kind::TAGGED_TEMPLATE,
    kind::SEQUENCE,
    kind::SEQUENCE,
];
