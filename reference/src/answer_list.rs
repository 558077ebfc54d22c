//! Which cases are kept as answers.

use std::collections::HashSet;
use std::hash::Hash;

use crate::fold::{Answer, fold};
use crate::generate::case::Case;
use crate::generate::damage::damaged_case;
use crate::generate::exhaustive::{passed_files, small_files};
use crate::generate::facts::facts;
use crate::generate::limits::limits;
use crate::generate::looks::{Looked, looked};
use crate::generate::nests::plain_nests;
use crate::generate::random_file::random_file;
use crate::generate::refusals::refusals;
use crate::generate::rules::{Rule, rules};
use crate::generate::runs::run_cases;
use crate::generate::shapes::{Shape, shapes};
use crate::record::{Node, RecordFile, kind};
use crate::scripts::scripts;

/// The seed of the random part.
const SEED: u64 = 157;
const RANDOM_FILES: usize = 76;
const DAMAGED_FILES: usize = 60;
/// Random files longer than this are left out.
const MOST_BYTES: usize = 400;
/// Of a long table's refused files one in so many is kept.
const REFUSED_KEPT: usize = 7;
/// Of a long table's accepted files one in so many is kept.
const ACCEPTED_KEPT: usize = 13;
/// Of the files with several facts changed one in so many is kept.
const FACTS_KEPT: usize = 2503;

/// A list that is kept in files.
pub struct List {
    /// From the directory of the reference.
    pub paths: &'static [&'static str],
    pub cases: Vec<Case>,
}

/// The kept lists: the answers of the fold, and the whole tables of refusals and limits.
pub fn lists() -> [List; 2] {
    [
        List {
            paths: &["answers/answers.bin", "../crates/replay_folds/stdin"],
            cases: answer_cases(),
        },
        List {
            paths: &["../crates/replay_refusals/stdin"],
            cases: refusals().into_iter().chain(limits()).collect(),
        },
    ]
}

/// The answers of the fold, in the order in which they are written.
fn answer_cases() -> Vec<Case> {
    let mut cases = Vec::new();
    cases.extend(scripts().iter().map(|it| Case::of_records(it.text, &it.file)));
    cases.extend(rules().iter().map(Rule::case));
    cases.extend(shapes().iter().map(Shape::case));
    cases.extend(run_cases());
    cases.extend(looked().iter().map(Looked::case));
    cases.extend(refusal_cases());
    cases.extend(limits().into_iter().filter(|case| !case.bulk));
    cases.extend(plain_nests().iter().map(|(what, file)| Case::of_records(what, file)));
    cases.extend(fact_cases());
    cases.extend(small_cases());
    cases.extend(passed_cases());
    cases.extend(random_cases());
    cases.extend(damaged_cases());
    cases
}

/// What became of a file.
#[derive(PartialEq, Eq, Hash)]
enum Outcome {
    Folded,
    Changed,
    Same,
}

fn outcome(case: &Case, answer: &Answer) -> Outcome {
    if answer.folds > 0 {
        Outcome::Folded
    } else if answer.result != case.file {
        Outcome::Changed
    } else {
        Outcome::Same
    }
}

/// The first case of each sort. The sort of a case is its outcome and whatever else is given for
/// it.
struct FirstOfEach<K> {
    seen: HashSet<(K, Outcome)>,
    cases: Vec<Case>,
}

impl<K: Eq + Hash> FirstOfEach<K> {
    fn new() -> Self {
        Self { seen: HashSet::new(), cases: Vec::new() }
    }

    fn offer(&mut self, sort: K, case: Case) {
        let answer = fold(&case.file, case.room);
        if self.seen.insert((sort, outcome(&case, &answer))) {
            self.cases.push(case);
        }
    }
}

/// The searched tree's nodes: those behind the initializer.
fn searched_tree(file: &RecordFile) -> &[Node] {
    let mut wanted = 1;
    let mut behind = 0;
    while wanted > 0 {
        wanted += usize::from(file.nodes[behind].children);
        wanted -= 1;
        behind += 1;
    }
    &file.nodes[behind..]
}

/// The refusals, the long tables thinned out.
fn refusal_cases() -> Vec<Case> {
    let (mut refused, mut accepted) = (0, 0);
    let kept = |case: &Case| {
        let (seen, step) = match case.expected {
            Some(0) => (&mut accepted, ACCEPTED_KEPT),
            _ => (&mut refused, REFUSED_KEPT),
        };
        *seen += usize::from(case.bulk);
        !case.bulk || *seen % step == 0
    };
    refusals().into_iter().filter(kept).collect()
}

/// The near misses, and some of the others.
fn fact_cases() -> Vec<Case> {
    let mut number = 0;
    let mut out = Vec::new();
    facts(&mut |case| {
        number += 1;
        if !case.bulk || number % FACTS_KEPT == 0 {
            out.push(case);
        }
    });
    out
}

/// The kind above the name and which child the name is; nothing if the tree doesn't hold it below
/// its root.
fn place_of_name(tree: &[Node]) -> Option<(u8, u16)> {
    let mut above: Vec<(&Node, u16)> = Vec::new();
    for node in tree {
        if node.kind == kind::NAME && node.label == 0 {
            return above.last().map(|&(parent, child)| (parent.kind, child));
        }
        above.push((node, 0));
        while above.last().is_some_and(|&(node, child)| node.children == child) {
            above.pop();
            if let Some((_, child)) = above.last_mut() {
                *child += 1;
            }
        }
    }
    None
}

/// Literal and function count as one, and so do the names without effect. Members and chains tell
/// only directly below calls and tags.
fn initializer_sort(number: usize, place: Option<(u8, u16)>) -> Option<usize> {
    match (number, place) {
        (0 | 1, _) => Some(0),
        (2 | 3, _) => Some(2),
        (4, _) | (_, Some((kind::CALL | kind::NEW | kind::TAGGED_TEMPLATE, _))) => Some(number),
        _ => None,
    }
}

/// Trees of up to three nodes: for each place of the name, each sort of initializer, each outcome.
fn small_cases() -> Vec<Case> {
    let mut first = FirstOfEach::new();
    small_files(3, &mut |initializer, file| {
        let place = place_of_name(searched_tree(&file));
        if let Some(sort) = initializer_sort(initializer, place) {
            first.offer((sort, place), Case::of_records("a small tree", &file));
        }
    });
    first.cases
}

/// What is passed: for each kind and each label, a name and an effect.
fn passed_cases() -> Vec<Case> {
    let mut first = FirstOfEach::new();
    passed_files(2, &mut |initializer, file| {
        if matches!(initializer, 2 | 4) {
            let passed = searched_tree(&file)[1];
            let sort = (initializer, passed.kind, passed.label);
            first.offer(sort, Case::of_records("a passed tree", &file));
        }
    });
    first.cases
}

/// Short random files, those with folds or changes before others.
fn random_cases() -> Vec<Case> {
    let mut out = Vec::new();
    for case in 0.. {
        let records = random_file(SEED, case, 16);
        let candidate = Case::of_records("random", &records);
        let answer = fold(&candidate.file, candidate.room);
        let tells = outcome(&candidate, &answer) != Outcome::Same || case % 8 == 0;
        if tells && candidate.file.len() <= MOST_BYTES {
            out.push(candidate);
        }
        if out.len() == RANDOM_FILES {
            break;
        }
    }
    out
}

/// Damaged copies of short random files.
fn damaged_cases() -> Vec<Case> {
    let cases = (0..).map(|case| damaged_case(SEED + 1, case, 6));
    cases.filter(|case| case.file.len() <= MOST_BYTES / 2).take(DAMAGED_FILES).collect()
}
