//! Every choice of the facts that a search asks for, over the smallest trees that tell the answer.
//!
//! A table has factors, each with its values; the first value of each makes up a file that folds.
//! Files that differ from it in one factor are the near misses; most of the others stand in bulk.

mod declarators;
mod names;
mod this;

use super::case::Case;
use crate::record::RecordFile;

/// A table of files, one for each choice of values.
struct Table<const N: usize> {
    what: &'static str,
    /// How many values each factor has.
    factors: [usize; N],
    file: fn([usize; N]) -> RecordFile,
    /// Choices that tell something although they change several factors.
    telling: &'static [[usize; N]],
}

/// Every file of the three tables.
pub fn facts(put: &mut dyn FnMut(Case)) {
    names::TABLE.each_file(put);
    this::TABLE.each_file(put);
    declarators::TABLE.each_file(put);
}

impl<const N: usize> Table<N> {
    fn each_file(&self, put: &mut dyn FnMut(Case)) {
        for number in 0..self.factors.iter().product() {
            let choice = choice_of(number, &self.factors);
            let case = Case::of_records(self.what, &(self.file)(choice));
            let changed = choice.iter().filter(|&&value| value != 0).count();
            let near = changed <= 1 || self.telling.contains(&choice);
            put(if near { case } else { case.in_bulk() });
        }
    }
}

/// The choice of this number: its digits, each in the base of its factor.
fn choice_of<const N: usize>(mut number: usize, factors: &[usize; N]) -> [usize; N] {
    factors.map(|values| {
        let value = number % values;
        number /= values;
        value
    })
}
