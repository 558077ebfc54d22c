//! Random files in which folds are frequent. Most are accepted.

mod facts;
mod lines;
mod trees;

use crate::build::{empty_file, push_line};
use crate::random::Random;
use crate::record::*;
use lines::Writer;

/// How lively a file is.
#[derive(Clone, Copy)]
struct Mood {
    /// Most names are settled, and no kind has an effect by itself: searches go far.
    calm: bool,
    /// How many of a hundred nodes are marked.
    marks: usize,
}

/// A file that depends on the seed and the case's number alone, with trees of up to so many nodes.
pub fn random_file(seed: u64, case: u64, size: usize) -> RecordFile {
    let mut random = Random::new(seed, case);
    let mood = Mood { calm: random.percent(35), marks: random.pick(&[4, 12, 25, 40]) };
    let mut file = empty_file(Vec::new());
    facts::choose_scopes(&mut random, &mut file);
    let declared = random.between(1, 8);
    facts::choose_names(&mut random, mood, declared, &mut file);
    let lines = Writer::new(&mut random, mood, &file.names, declared).lines(size);
    lines.iter().for_each(|line| push_line(&mut file, line));
    choose_labels(&mut random, &mut file.nodes);
    if random.percent(98) {
        raise_counts(&mut file);
    }
    file
}

/// Labels that the fold only carries. Those of names, targets and operators mean something and
/// stay.
fn choose_labels(random: &mut Random, nodes: &mut [Node]) {
    for node in nodes {
        if !matches!(node.kind, kind::NAME | kind::TARGET_NAME | kind::UNARY) {
            node.label = random.pick(&[0, 0, 1, 2, 3, 256, 65535]);
        }
    }
}

/// Raises the stated counts to the uses, so that row 10 passes; a target makes a name mutated.
fn raise_counts(file: &mut RecordFile) {
    let mut compound = false;
    let mut uses = vec![(0u32, 0u32); file.names.len()];
    for node in &file.nodes {
        let target = node.kind == kind::TARGET_NAME;
        if target || node.kind == kind::NAME {
            let (reads, targets) = &mut uses[usize::from(node.label)];
            *reads += u32::from(!target || compound);
            *targets += u32::from(target);
        }
        compound = node.kind == kind::ASSIGNMENT && node.has(flag::COMPOUND);
    }
    for (name, (reads, targets)) in file.names.iter_mut().zip(uses) {
        if name.is_recorded() {
            name.reads = name.reads.max(reads);
            name.writes = name.writes.max(targets);
        } else if !name.is_unresolved() && targets > 0 {
            name.flags |= name::MUTATED;
        }
    }
}
