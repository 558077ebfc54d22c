//! Files to judge, made anew at every run from seeds and tables.

pub mod bytes;
pub mod case;
pub mod damage;
pub mod exhaustive;
pub mod facts;
pub mod limits;
pub mod looks;
pub mod nests;
pub mod random_file;
pub mod refusals;
pub mod rules;
pub mod runs;
pub mod shapes;
mod trees;

use case::Case;

/// The files of which something was worked out by hand, the scripts excepted.
pub fn worked_out() -> impl Iterator<Item = Case> {
    let rules = rules::rules().into_iter().map(|it| it.case());
    let shapes = shapes::shapes().into_iter().map(|it| it.case());
    let looks = looks::looked().into_iter().map(|it| it.case());
    let numbers = refusals::refusals().into_iter().chain(limits::limits());
    numbers.chain(rules).chain(shapes).chain(runs::run_cases()).chain(looks)
}
