//! Files to time and to measure, by class.

use reference::build::{Line, Tree, declared_name, file_of};
use reference::fold::fold;
use reference::generate::case::Case;
use reference::generate::limits::limits;
use reference::generate::nests::nests;
use reference::generate::random_file::random_file;
use reference::generate::refusals::refusals;
use reference::generate::runs::repeats;
use reference::record::{NODE_BYTES, kind, read_header, statement};
use reference::scripts::scripts;

pub struct Class {
    pub what: String,
    pub cases: Vec<Case>,
}

fn class(what: impl Into<String>, cases: Vec<Case>) -> Class {
    Class { what: what.into(), cases }
}

/// Scripts as a bench has them.
fn typical() -> Vec<Class> {
    let of_scripts = scripts().iter().map(|it| Case::of_records(it.text, &it.file)).collect();
    vec![
        class("the twelve scripts", of_scripts),
        class("random, 10 to 99 nodes", random_of(24, 10..100, 300)),
        class("random, 100 to 499 nodes", random_of(200, 100..500, 100)),
    ]
}

/// Accepted random files with so many nodes.
fn random_of(size: usize, nodes: std::ops::Range<u16>, count: usize) -> Vec<Case> {
    (0..)
        .map(|number| Case::of_records("random", &random_file(11, number, size)))
        .filter(|case| nodes.contains(&read_header(&case.file).nodes))
        .filter(|case| fold(&case.file, case.room).number == 0)
        .take(count)
        .collect()
}

/// The largest files that are accepted.
fn largest() -> Vec<Class> {
    let accepted = limits().into_iter().filter(|case| case.expected == Some(0));
    let large = accepted.filter(|case| case.file.len() > 2000 * NODE_BYTES);
    let mut classes: Vec<Class> = large.map(|case| class(case.what.clone(), vec![case])).collect();
    classes.push(class("random, 1500 to 2999 nodes", random_of(2500, 1500..3000, 20)));
    classes
}

/// As many folds as there can be, all into one statement.
fn most_folds() -> Vec<Class> {
    const NAMES: u16 = 256;
    let declare = |name: u16| Line::declare(statement::LET, name, Tree::literal());
    let read = |tree: &dyn Fn(u16) -> Tree| {
        let items = (0..NAMES).map(tree).collect();
        Line::Expression(Tree::new(kind::ARRAY, items))
    };
    let file = |last: Line| {
        let lines: Vec<Line> = (0..NAMES).map(declare).chain([last]).collect();
        Case::of_records("", &file_of(vec![declared_name(1); NAMES.into()], &lines))
    };
    let bare = file(read(&Tree::name));
    let below = file(read(&|name| Tree::new(kind::UNARY, vec![Tree::name(name)])));
    vec![
        class("256 folds into one statement", vec![bare]),
        class("256 folds, each below an operator", vec![below]),
    ]
}

/// Each nest, as deep as can be.
fn deepest() -> Vec<Class> {
    let of = |(what, file): &(_, _)| class(what, vec![Case::of_records(what, file)]);
    nests().iter().map(of).collect()
}

/// Files that the row refuses.
fn refused_with(row: u32) -> Class {
    let cases = refusals().into_iter().filter(|case| case.expected == Some(row));
    class(format!("refused with {row}"), cases.collect())
}

/// Files that each row refuses.
fn refused() -> Vec<Class> {
    let longest = limits().into_iter().find(|case| case.what == "the longest file");
    let longest = longest.expect("it is among the limits");
    let room = longest.room - 1;
    let mut classes: Vec<Class> = (1..=11).map(refused_with).collect();
    classes.retain(|class| !class.cases.is_empty());
    classes.push(class("refused with 11, the longest file", vec![longest.in_room(room)]));
    classes
}

/// Files for the repeat: scripts as a bench has them, the largest ones, and those that take three
/// runs.
pub fn repeated() -> Vec<Class> {
    let three = repeats().into_iter().filter(|it| it.runs == 3);
    let three = three.map(|it| Case::of_records(it.text, &it.file));
    let (small, large): (Vec<Case>, _) = three.partition(|case| case.file.len() < 100 * NODE_BYTES);
    let mut classes: Vec<Class> = typical().into_iter().chain(largest()).collect();
    classes.push(class("three runs, small files", small));
    classes.extend(large.into_iter().map(|case| class(case.what.clone(), vec![case])));
    classes
}

/// Files to measure: the nests, and those that are refused whatever the room is, as one class each.
pub fn measured() -> Vec<Class> {
    let together = |what: &str, classes: Vec<Class>| {
        class(what, classes.into_iter().flat_map(|it| it.cases).collect())
    };
    let refused = (1..=10).map(refused_with).collect();
    let mut classes: Vec<Class> =
        typical().into_iter().chain(largest()).chain(most_folds()).collect();
    classes.push(together("the deepest nests", deepest()));
    classes.push(together("refused with 1 to 10", refused));
    classes
}

/// The classes of files, in groups.
pub fn groups() -> [(&'static str, Vec<Class>); 5] {
    [
        ("typical scripts", typical()),
        ("the largest accepted files", largest()),
        ("most folds", most_folds()),
        ("the deepest nests", deepest()),
        ("refused files", refused()),
    ]
}
