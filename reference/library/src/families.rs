//! Every family of files, each compared whole or in part.

use std::time::Instant;

use reference::commands::check::size_of;
use reference::generate::bytes::{changed_bytes, lengths};
use reference::generate::case::Case;
use reference::generate::damage::damaged_case;
use reference::generate::exhaustive::{passed_files, small_files};
use reference::generate::facts::facts;
use reference::generate::nests::nests;
use reference::generate::random_file::random_file;
use reference::generate::worked_out;
use reference::scripts::scripts;

use crate::amount::{Amount, Table};
use crate::compare::Compared;

/// What `Compared::case` asks.
const EACH_FILE: &str = "number, length, folds, runs and every byte of the output, written or not, \
                         and 64 bytes on either side of it, in the room that row 11 wants or the \
                         case has, a byte less and more; of one file in 16 no room and 65536 bytes \
                         too; once for each file the number, length and looks that are measured; \
                         then each result again until one stays";

/// Trees of a long file have up to so many nodes.
const LONG: usize = 2500;

/// Prints what was compared. An error if anything differs.
pub fn compare_all(amount: Amount) -> Result<(), String> {
    println!("each file below, seed {}: {EACH_FILE}", amount.seed);
    let start = Instant::now();
    let mut all = Compared::new(None);
    let mut part = |what: &str, stack: Option<usize>, run: &dyn Fn(&mut Compared)| {
        let start = Instant::now();
        let mut compared = Compared::new(stack);
        run(&mut compared);
        println!("{what}: {} ({:.1?})", compared.line(), start.elapsed());
        all.add(&compared);
    };
    part("deep nests, on a stack of 2 MB", Some(2 << 20), &deep_nests);
    let mut family = |what: &str, run: &dyn Fn(&mut Compared)| part(what, None, run);
    family("hand-made files", &hand_made);
    family("lengths", &|compared| lengths(&mut |case| compared.case(&case)));
    family("changed bytes", &|compared| {
        let mut each = one_in(amount.bytes);
        changed_bytes(&mut |case| each(&mut || compared.case(&case)));
    });
    family("small trees", &|compared| small_trees(compared, amount.small));
    family("passed trees", &|compared| passed_trees(compared, amount.passed));
    family("facts", &|compared| {
        let mut each = one_in(amount.facts);
        facts(&mut |case| each(&mut || compared.case(&case)));
    });
    family("random files", &|compared| random_files(compared, amount));
    family("damaged files", &|compared| damaged_files(compared, amount));
    family("long files", &|compared| long_files(compared, amount));
    println!("all: {} ({:.1?})", all.line(), start.elapsed());
    if all.differences() > 0 {
        return Err(format!("{} calls differ", all.differences()));
    }
    println!("nothing differs");
    Ok(())
}

/// Runs what it is given once in so many times, the first time too.
fn one_in(times: usize) -> impl FnMut(&mut dyn FnMut()) {
    let mut count = 0;
    move |run| {
        if count % times == 0 {
            run();
        }
        count += 1;
    }
}

fn hand_made(compared: &mut Compared) {
    for script in scripts() {
        compared.case(&Case::of_records(script.text, &script.file));
    }
    worked_out().for_each(|case| compared.case(&case));
}

fn deep_nests(compared: &mut Compared) {
    nests().iter().for_each(|(what, file)| compared.case(&Case::of_records(what, file)));
}

fn small_trees(compared: &mut Compared, table: Table) {
    let mut each = one_in(table.one_in);
    small_files(table.nodes, &mut |_, file| {
        each(&mut || compared.case(&Case::of_records("small", &file)));
    });
}

fn passed_trees(compared: &mut Compared, table: Table) {
    let mut each = one_in(table.one_in);
    passed_files(table.nodes, &mut |_, file| {
        each(&mut || compared.case(&Case::of_records("passed", &file)));
    });
}

fn random_files(compared: &mut Compared, amount: Amount) {
    for case in 0..amount.random {
        let file = random_file(amount.seed, case, size_of(case));
        compared.case(&Case::of_records("random", &file));
    }
}

fn damaged_files(compared: &mut Compared, amount: Amount) {
    for case in 0..amount.damaged {
        compared.case(&damaged_case(amount.seed, case, size_of(case)));
    }
}

fn long_files(compared: &mut Compared, amount: Amount) {
    for case in 0..amount.long {
        let seed = amount.seed.wrapping_add(1000);
        compared.case(&Case::of_records("long", &random_file(seed, case, LONG)));
        compared.case(&damaged_case(seed, case, LONG));
    }
}
