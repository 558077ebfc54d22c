//! `let v = f(); [n, v]`: the fold happens if n is settled.

use super::Table;
use crate::build::{Line, Tree, declared_name, empty_file, push_line};
use crate::record::*;

/// Sort of name, import, value record, script, current scope, the name's scope, function scopes.
pub const TABLE: Table<7> = Table {
    what: "names",
    factors: [5, 2, 5, 2, 4, 4, 16],
    file,
    telling: &[
        // In a script: scopes other than 0.
        [0, 0, 0, 1, 0, 1, 0],
        [1, 0, 0, 1, 0, 2, 0],
        // Read across a function: a var, neither, an import; recorded.
        [1, 0, 0, 0, 0, 0, 3],
        [2, 0, 0, 0, 0, 0, 3],
        [0, 0, 2, 0, 0, 0, 3],
        // The climb to a scope that is no ancestor, scope 0 no function.
        [0, 0, 0, 0, 0, 3, 1],
        [0, 0, 0, 0, 3, 1, 1],
        // The function scope is the name's own, or stands above it.
        [0, 0, 0, 0, 0, 1, 2],
        [0, 0, 0, 0, 0, 2, 2],
        [0, 0, 0, 0, 0, 2, 4],
    ],
};

const SEARCHED: u16 = 0;
const ASKED: u16 = 1;

/// Scopes 0, 1, 2 stand one below the other; scope 3 stands below 0, beside them.
const PARENTS: [u16; 4] = [NONE, 0, 1, 0];
/// The current scope, by value.
const CURRENT: [u16; 4] = [2, 1, 0, 3];
/// The name's scope, by value.
const OWN: [u16; 4] = [0, 1, 2, 3];

fn file(choice: [usize; 7]) -> RecordFile {
    let [sort, import, record, script, current, own, functions] = choice;
    let asked = name_of(sort, import == 1, record, OWN[own]);
    let mut file = empty_file(vec![declared_name(1), asked]);
    file.scopes = scopes(functions);
    file.current_scope = CURRENT[current];
    file.names[usize::from(SEARCHED)].scope = CURRENT[current];
    file.options = if script == 1 { option::SCRIPT } else { 0 };
    let effect = Tree::leaf(kind::OTHER).marked();
    push_line(&mut file, &Line::declare(statement::LET, SEARCHED, effect));
    let items = vec![Tree::name(ASKED), Tree::name(SEARCHED)];
    push_line(&mut file, &Line::Expression(Tree::new(kind::ARRAY, items)));
    file
}

/// Block scoped, var, neither, unresolved, `eval`; unrecorded, the same and mutated, recorded,
/// written, recorded and mutated but not written.
fn name_of(sort: usize, import: bool, record: usize, scope: u16) -> Name {
    let sorts = [name::BLOCK_SCOPED, name::VAR, 0, name::UNRESOLVED, name::UNRESOLVED | name::EVAL];
    let sort = sorts[sort];
    if sort & name::UNRESOLVED != 0 {
        return Name { flags: sort, scope: NONE, reads: 0, writes: 0 };
    }
    let records =
        [0, name::MUTATED, name::RECORDED, name::RECORDED, name::RECORDED | name::MUTATED];
    let import = if import { name::IMPORT } else { 0 };
    let flags = sort | import | records[record];
    let reads = u32::from(flags & name::RECORDED != 0);
    Name { flags, scope, reads, writes: u32::from(record == 3) }
}

/// The bits of the number say which scopes are functions; scope 0 alone comes first.
fn scopes(functions: usize) -> Vec<Scope> {
    let bits = functions ^ 1;
    let flags = |scope: usize| if bits >> scope & 1 == 1 { scope::FUNCTION } else { 0 };
    PARENTS.iter().enumerate().map(|(own, &parent)| Scope { parent, flags: flags(own) }).collect()
}
