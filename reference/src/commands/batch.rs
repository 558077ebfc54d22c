//! Writes many cases with their answers, in the form of the kept answers, for a program to replay.

use std::io::Write;

use crate::answers::write_entry;
use crate::generate::bytes::{changed_bytes, lengths};
use crate::generate::case::Case;
use crate::generate::damage::damaged_case;
use crate::generate::exhaustive::{passed_files, small_files};
use crate::generate::facts::facts;
use crate::generate::limits::limits;
use crate::generate::looks::looked;
use crate::generate::nests::nests;
use crate::generate::random_file::random_file;
use crate::generate::refusals::refusals;
use crate::generate::rules::rules;
use crate::generate::runs::run_cases;
use crate::generate::shapes::shapes;

/// The names of the families, with their numbers.
pub const FAMILIES: &str = "random SEED FIRST COUNT SIZE | damaged SEED FIRST COUNT SIZE | \
                            small NODES | passed NODES | facts | rules | shapes | runs | looks | \
                            nests | limits | refusals | lengths | bytes";

/// Writes the entries of a family to the output.
pub fn batch(family: &str, numbers: &[u64], out: &mut dyn Write) -> Result<(), String> {
    each_case(family, numbers, &mut |case| {
        let mut entry = Vec::new();
        write_entry(&case, &mut entry);
        out.write_all(&entry).expect("the output takes the entry");
    })
}

fn each_case(family: &str, numbers: &[u64], put: &mut dyn FnMut(Case)) -> Result<(), String> {
    let size = |number: u64| usize::try_from(number).expect("small").max(1);
    match (family, numbers) {
        ("random", &[seed, first, count, nodes]) => {
            let file = |case: u64| random_file(seed, case, size(nodes));
            (first..first + count).for_each(|case| put(Case::of_records("random", &file(case))));
        }
        ("damaged", &[seed, first, count, nodes]) => {
            (first..first + count).for_each(|case| put(damaged_case(seed, case, size(nodes))));
        }
        ("small", &[nodes]) => {
            small_files(size(nodes), &mut |_, file| put(Case::of_records("small", &file)));
        }
        ("passed", &[nodes]) => {
            passed_files(size(nodes), &mut |_, file| put(Case::of_records("passed", &file)));
        }
        ("nests", []) => {
            nests().iter().for_each(|(what, file)| put(Case::of_records(what, file)));
        }
        ("facts", []) => facts(put),
        ("rules", []) => rules().iter().for_each(|rule| put(rule.case())),
        ("shapes", []) => shapes().iter().for_each(|shape| put(shape.case())),
        ("runs", []) => run_cases().for_each(put),
        ("looks", []) => looked().iter().for_each(|it| put(it.case())),
        ("limits", []) => limits().into_iter().for_each(put),
        ("refusals", []) => refusals().into_iter().for_each(put),
        ("lengths", []) => lengths(put),
        ("bytes", []) => changed_bytes(put),
        _ => return Err(format!("a family is one of {FAMILIES}")),
    }
    Ok(())
}
