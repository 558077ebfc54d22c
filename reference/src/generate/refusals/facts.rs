//! Row 5: names, scopes and frames.

use super::{Cases, MUTATED};
use crate::record::*;

/// Row 5, names.
pub fn name_facts(cases: &mut Cases) {
    let all_resolved = 127;
    cases.change(0, "every bit of a resolved name", |file| {
        file.names[usize::from(MUTATED)].flags = all_resolved;
    });
    for bit in 9..16 {
        cases.change(5, "an unknown bit of a name", |file| file.names[0].flags |= 1 << bit);
    }
    for bit in 0..7 {
        let what = format!("unresolved with bit {bit}");
        cases.change(5, &what, |file| file.names[1].flags |= 1 << bit);
    }
    cases.change(0, "unresolved `eval`", |file| file.names[1].flags |= name::EVAL);
    cases.change(5, "resolved `eval`", |file| file.names[0].flags |= name::EVAL);
    cases.change(5, "unresolved with scope 0", |file| file.names[1].scope = 0);
    cases.change(5, "unresolved with reads", |file| file.names[1].reads = 1);
    cases.change(5, "unresolved with writes", |file| file.names[1].writes = 1);
    cases.change(0, "name of scope 2", |file| file.names[0].scope = 2);
    cases.change(5, "name of scope 3", |file| file.names[0].scope = 3);
    cases.change(5, "resolved name without scope", |file| file.names[0].scope = NONE);
    cases.change(5, "reads without record", |file| file.names[0].reads = 65536);
    cases.change(5, "writes without record", |file| file.names[0].writes = 1 << 24);
}

/// Row 5, scopes and frames.
pub fn scopes_and_frames(cases: &mut Cases) {
    cases.change(5, "scope 0 has a parent", |file| file.scopes[0].parent = 0);
    cases.change(5, "scope 1 is its parent", |file| file.scopes[1].parent = 1);
    cases.change(5, "scope 1 below scope 2", |file| file.scopes[1].parent = 2);
    cases.change(5, "scope 1 without parent", |file| file.scopes[1].parent = NONE);
    cases.change(0, "scope 2 below scope 0", |file| file.scopes[2].parent = 0);
    cases.change(0, "scope with both bits", |file| file.scopes[0].flags = 3);
    cases.change(5, "scope bit 2", |file| file.scopes[0].flags = 4);
    cases.change(5, "scope bit 15", |file| file.scopes[2].flags = 1 << 15);
    cases.change(0, "frame of scope 2", |file| file.frames[0].scope = 2);
    cases.change(5, "frame of scope 3", |file| file.frames[0].scope = 3);
    cases.change(5, "frame without scope", |file| file.frames[0].scope = NONE);
    cases.change(5, "frame's zero", |file| file.frames[0].zero = 1);
    cases.change(0, "frame never initialised", |file| file.frames[0].initialised = NEVER);
}
