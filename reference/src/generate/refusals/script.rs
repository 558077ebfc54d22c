//! Rows 6, 9 and 10: declarators, statements, and what they say of names.

use super::{Cases, MUTATED, PLAIN, SEARCHED, UNRESOLVED, WRITTEN, assign};
use crate::build::{Line, Tree, push_line};
use crate::record::*;

/// Row 6.
pub fn declarators_and_statements(cases: &mut Cases) {
    cases.change(0, "a declared name without record", |file| file.declarators[2].name = MUTATED);
    cases.change(6, "an unresolved declared name", |file| file.declarators[0].name = UNRESOLVED);
    cases.change(6, "declared name 5", |file| file.declarators[0].name = 5);
    cases.change(6, "declared name 65534", |file| file.declarators[1].name = 65534);
    cases.change(6, "initializer 2", |file| file.declarators[0].initializer = 2);
    cases.change(6, "initializer 256", |file| file.declarators[0].initializer = 256);
    for kind in 0..5 {
        cases.change(0, "a kind of declaration", |file| file.statements[1].kind = kind);
    }
    cases.change(6, "statement kind 7", |file| file.statements[3].kind = 7);
    cases.change(6, "statement kind 255", |file| file.statements[3].kind = 255);
    cases.change(6, "statement's zero", |file| file.statements[4].zero = 1);
    cases.change(6, "declarators of an expression", |file| {
        file.statements[1].declarators = 1;
        file.statements[2].declarators = 1;
    });
    cases.change(6, "declarators of an other statement", |file| {
        file.statements[1].declarators = 1;
        file.statements[3].declarators = 1;
    });
    cases.change(6, "a declarator not taken", |file| file.statements[1].declarators = 1);
    cases.change(6, "a declarator too many taken", |file| file.statements[1].declarators = 3);
    cases.change(6, "a sum beyond 65535", |file| {
        file.statements[0].declarators = 2;
        file.statements[1].declarators = 65535;
        push_line(file, &Line::Declaration { kind: statement::VAR, declarators: vec![] });
        file.statements[5].declarators = 2;
    });
    cases.change(0, "an empty using", |file| {
        push_line(file, &Line::Declaration { kind: statement::USING, declarators: vec![] });
    });
    cases.change(0, "a bare const and a bare pattern", |file| file.statements[1].kind = 2);
}

/// Row 9.
pub fn declared_twice(cases: &mut Cases) {
    let again = |name: u16, kind: u8| Line::Declaration { kind, declarators: vec![(name, None)] };
    cases.change(9, "twice in two statements", |file| file.declarators[1].name = SEARCHED);
    cases.change(9, "twice in one statement", |file| file.declarators[1].name = PLAIN);
    cases.change(9, "again at the end", |file| push_line(file, &again(SEARCHED, statement::VAR)));
    cases.change(9, "again by a using", |file| push_line(file, &again(PLAIN, statement::USING)));
    cases.change(0, "another at the end", |file| push_line(file, &again(MUTATED, statement::VAR)));
    cases.change(0, "two patterns", |file| file.declarators[2].name = NONE);
}

/// Row 10.
pub fn exceeded_counts(cases: &mut Cases) {
    let written = usize::from(WRITTEN);
    let target = |name: u16| Tree::leaf(kind::TARGET_NAME).labelled(name);
    cases.change(10, "no read stated", |file| file.names[usize::from(SEARCHED)].reads = 0);
    cases.change(0, "reads just enough", |file| file.names[written].reads = 1);
    cases.change(10, "reads one too few", |file| file.names[written].reads = 0);
    cases.change(10, "no write stated", |file| file.names[written].writes = 0);
    cases.change(10, "a compound target is a read", |file| {
        file.names[written].reads = 1;
        file.names[written].writes = 2;
        push_line(file, &Line::Expression(assign(flag::COMPOUND, target(WRITTEN))));
    });
    cases.change(0, "a compound target counted", |file| {
        file.names[written].writes = 2;
        push_line(file, &Line::Expression(assign(flag::COMPOUND, target(WRITTEN))));
    });
    cases.change(0, "a compound target is one read", |file| {
        file.names[written].reads = 1;
        let node = file.nodes.iter_mut().find(|it| it.kind == kind::ASSIGNMENT);
        node.expect("there is one").flags = flag::COMPOUND;
        let read = file.nodes.iter_mut().find(|it| it.kind == kind::NAME && it.label == WRITTEN);
        read.expect("there is one").label = PLAIN;
    });
    cases.change(10, "a second target", |file| {
        push_line(file, &Line::Expression(assign(0, target(WRITTEN))));
    });
    cases.tree(10, "a target without record, not mutated", assign(0, target(PLAIN)));
    cases.tree(0, "a target without record, mutated", assign(0, target(MUTATED)));
    cases.tree(0, "a compound target without record", assign(flag::COMPOUND, target(MUTATED)));
    cases.tree(0, "an unresolved target", assign(0, target(UNRESOLVED)));
    cases.tree(0, "a read without record", Tree::name(PLAIN));
}
