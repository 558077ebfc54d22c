//! One file, in several rooms, by the functions of the library and by the reference.

use reference::fold::Answer;
use reference::generate::case::Case;
use reference::measure::Measured;
use reference::refusal::read_checked;
use reference::steady::{Steady, runs};

use crate::call::{Caller, FUNCTIONS, Judged, MOST_ROOM};
use crate::calls::{Folds, Measures};

const ROWS: usize = 11;
/// Of so many files one is folded without any room and with the most room too.
const ONE_IN: u64 = 16;

/// What was compared, and what differs.
pub struct Compared {
    caller: Caller,
    files: u64,
    longest: usize,
    /// Bytes of outputs, for each function that folds.
    bytes: u64,
    /// Calls of each such function that returned 0, and that returned each row.
    returned: [u64; ROWS + 1],
    folds: [Folds; 2],
    measures: Measures,
}

impl Compared {
    /// The library is called on a thread with such a stack, or on the caller's.
    pub fn new(stack: Option<usize>) -> Self {
        Self {
            caller: Caller::new(stack),
            files: 0,
            longest: 0,
            bytes: 0,
            returned: [0; ROWS + 1],
            folds: FUNCTIONS.map(Folds::new),
            measures: Measures::default(),
        }
    }

    /// The file in the case's room, with a byte less and with more; then each result that comes of
    /// it, until one stays.
    pub fn case(&mut self, case: &Case) {
        self.files += 1;
        self.longest = self.longest.max(case.file.len());
        let runs: Vec<Answer> = runs(&case.file, MOST_ROOM).collect();
        let more = 1 + usize::try_from(self.files % 97).expect("it is small");
        let mut rooms =
            vec![case.room, case.room.saturating_sub(1), (case.room + more).min(MOST_ROOM)];
        if self.files.is_multiple_of(ONE_IN) {
            rooms.extend([0, MOST_ROOM]);
        }
        self.file(&case.file, &rooms, &runs);
        for made in 1..runs.len() {
            let again = Case::new("a result", runs[made - 1].result.clone());
            self.file(&again.file, &[again.room], &runs[made..]);
        }
    }

    /// The file folded by each function in each room, and measured once. The runs are those that
    /// the judge makes in the most room.
    fn file(&mut self, file: &[u8], rooms: &[usize], runs: &[Answer]) {
        let steady = Steady::of_runs(runs.iter().cloned());
        for &room in rooms {
            let refused = read_checked(file, room).err();
            self.bytes += room as u64;
            self.returned[usize::try_from(refused.unwrap_or(0)).expect("it is a row")] += 1;
            let judged = match refused {
                None => [Judged::from(&runs[0]), Judged::from(&steady)],
                Some(number) => [Judged::refusal(number); 2],
            };
            for (folds, judged) in self.folds.iter_mut().zip(judged) {
                folds.call(&mut self.caller, file, room, judged);
            }
        }
        self.measures.call(&mut self.caller, file, Measured::from(&runs[0]));
    }

    pub fn add(&mut self, other: &Self) {
        self.files += other.files;
        self.longest = self.longest.max(other.longest);
        self.bytes += other.bytes;
        for (sum, more) in self.returned.iter_mut().zip(other.returned) {
            *sum += more;
        }
        for (sum, more) in self.folds.iter_mut().zip(&other.folds) {
            sum.add(more);
        }
        self.measures.add(&other.measures);
    }

    pub fn differences(&self) -> u64 {
        let folds: u64 = self.folds.iter().map(Folds::differences).sum();
        folds + self.measures.differences()
    }

    pub fn line(&self) -> String {
        let refused: Vec<String> = (1..=ROWS)
            .filter(|&row| self.returned[row] > 0)
            .map(|row| format!("{row}: {}", self.returned[row]))
            .collect();
        format!(
            "files {}, longest {}; calls of each function that folds {}, of these accepted {}, \
             refused [{}], bytes of output {}; {}; {}",
            self.files,
            self.longest,
            self.returned.iter().sum::<u64>(),
            self.returned[0],
            refused.join(", "),
            self.bytes,
            self.folds.each_ref().map(Folds::line).join("; "),
            self.measures.line(),
        )
    }
}
