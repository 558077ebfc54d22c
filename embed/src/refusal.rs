//! Why a file is refused.

use core::error::Error;
use core::fmt::{self, Display, Formatter};

/// The row of the table that refuses a file. Rows are tested in this order, and the first that
/// applies is returned.
#[derive(Clone, Copy, PartialEq, Eq, PartialOrd, Ord, Hash, Debug)]
#[repr(u8)]
pub enum Refusal {
    NoRecordFile = 1,
    Version = 2,
    Header = 3,
    Length = 4,
    Facts = 5,
    Statements = 6,
    Node = 7,
    Trees = 8,
    DeclaredTwice = 9,
    Uses = 10,
    Room = 11,
}

impl Refusal {
    /// Every row, in its order.
    pub const ALL: [Self; 11] = [
        Self::NoRecordFile,
        Self::Version,
        Self::Header,
        Self::Length,
        Self::Facts,
        Self::Statements,
        Self::Node,
        Self::Trees,
        Self::DeclaredTwice,
        Self::Uses,
        Self::Room,
    ];

    /// The number of the row, 1 to 11.
    pub fn number(self) -> u8 {
        self as u8
    }

    /// The row of this number.
    pub fn of_number(number: u64) -> Option<Self> {
        Self::ALL.into_iter().find(|row| u64::from(row.number()) == number)
    }

    fn words(self) -> &'static str {
        match self {
            Self::NoRecordFile => "under 24 bytes, or not a record file",
            Self::Version => "the version isn't 1",
            Self::Header => {
                "a count outside its limits, an unknown option, a scope of the header that isn't \
                 there, or its last number isn't zero"
            }
            Self::Length => "the length isn't what the counts say",
            Self::Facts => "a bad name fact, scope or frame",
            Self::Statements => {
                "a bad declarator or statement, an unresolved declared name, or declarators that \
                 don't sum up"
            }
            Self::Node => "a node that is bad by itself",
            Self::Trees => "trees that don't close, or a child where its kind can't stand",
            Self::DeclaredTwice => "a name declared twice",
            Self::Uses => "more reads or targets of a name than its facts say",
            Self::Room => "an output shorter than the file's length and 8 bytes a declarator",
        }
    }
}

impl Display for Refusal {
    fn fmt(&self, f: &mut Formatter<'_>) -> fmt::Result {
        write!(f, "refused {}: {}", self.number(), self.words())
    }
}

impl Error for Refusal {}
