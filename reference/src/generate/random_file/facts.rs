//! Options, scopes, frames and names of a random file.

use super::Mood;
use crate::random::Random;
use crate::record::*;

pub fn choose_scopes(random: &mut Random, file: &mut RecordFile) {
    let count = random.between(1, 5);
    for number in 1..count {
        let flags = random.bit16(35, scope::FUNCTION) | random.bit16(3, scope::DIRECT_EVAL);
        file.scopes.push(Scope { parent: random.u16_below(number), flags });
    }
    file.scopes[0].flags = random.bit16(10, scope::FUNCTION) | random.bit16(2, scope::DIRECT_EVAL);
    file.current_scope = random.u16_below(count);
    file.options = random.bit(12, option::SCRIPT)
        | random.bit(12, option::KEEP_FUNCTION_NAMES)
        | random.bit(12, option::KEEP_CLASS_NAMES)
        | random.bit(6, option::LITERAL_ONLY);
    if random.percent(50) {
        file.this_scope = random.u16_below(count);
    }
    for _ in 0..random.below(5) {
        let initialised = if random.percent(40) { NEVER } else { random.u32_below(300) };
        file.frames.push(Frame { scope: random.u16_below(count), zero: 0, initialised });
    }
}

/// First the names to declare, then names of every settled and unsettled kind.
pub fn choose_names(random: &mut Random, mood: Mood, declared: usize, file: &mut RecordFile) {
    let scopes = file.scopes.len();
    for _ in 0..declared {
        file.names.push(declared_name(random, scopes));
    }
    for _ in 0..random.between(2, 7) {
        let calm = mood.calm && random.percent(75);
        let it = if calm { calm_name(random, scopes) } else { other_name(random, scopes) };
        file.names.push(it);
    }
}

fn declared_name(random: &mut Random, scopes: usize) -> Name {
    let mut flags =
        random.pick(&[name::BLOCK_SCOPED, name::BLOCK_SCOPED, name::BLOCK_SCOPED, name::VAR, 0]);
    flags |= random.bit16(3, name::CATCH)
        | random.bit16(3, name::OBSERVABLE)
        | random.bit16(2, name::IMPORT)
        | random.bit16(2, name::MUTATED);
    let scope = random.u16_below(scopes);
    if random.percent(3) {
        return Name { flags, scope, reads: 0, writes: 0 };
    }
    let reads = random.pick(&[1, 1, 1, 1, 1, 1, 1, 0, 2]);
    let writes = u32::from(random.percent(4));
    Name { flags: flags | name::RECORDED, scope, reads, writes }
}

fn resolved(flags: u16, scope: u16) -> Name {
    Name { flags, scope, reads: 0, writes: 0 }
}

/// A name that is settled unless a scope makes it unsettled.
fn calm_name(random: &mut Random, scopes: usize) -> Name {
    resolved(random.pick(&[name::BLOCK_SCOPED, name::VAR, 0]), random.u16_below(scopes))
}

fn other_name(random: &mut Random, scopes: usize) -> Name {
    let scope = random.u16_below(scopes);
    match random.below(10) {
        0 | 1 => resolved(name::UNRESOLVED, NONE),
        2 => resolved(name::UNRESOLVED | random.bit16(50, name::EVAL), NONE),
        3 => resolved(name::IMPORT | random.bit16(30, name::BLOCK_SCOPED), scope),
        4 => resolved(name::MUTATED | random.pick(&[name::BLOCK_SCOPED, name::VAR, 0]), scope),
        5 => Name { writes: 3, reads: 9, ..resolved(name::RECORDED | name::BLOCK_SCOPED, scope) },
        6 => Name { reads: 9, ..resolved(name::RECORDED | name::MUTATED, scope) },
        _ => calm_name(random, scopes),
    }
}
