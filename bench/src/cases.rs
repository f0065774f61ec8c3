//! What is measured: calls that follow others, and journals in pairs.
//!
//! - [`calls`]: the calls themselves.
//! - [`walks`]: walks over page entries.
//! - [`maps`]: calls that the byte map makes too.
//! - [`journals`]: frames of journals.
//! - [`moved`]: how many bytes they move.

mod calls;
mod journals;
mod maps;
mod moved;
mod walks;

use crate::answer::Answer;
use crate::call::{answers, Call};
use crate::programs::Proved;

pub use moved::by_case;

/// The lengths of the fetches.
pub const LENGTHS: [usize; 4] = [1, 64, 512, 4_096];

/// How many records a fetch finds or joins.
pub const RECORDS: [usize; 3] = [1, 8, 64];

/// The most bytes of a fetch or a write, and of what a command holds.
const LONGEST: usize = 4_096;

/// The command that is measured.
const COMMAND: usize = 2;

/// Which table and plot a case belongs to.
#[derive(Clone, Copy, Debug, PartialEq, Eq)]
pub enum Group {
    /// Any other call.
    Call,
    /// A fetch of no bytes, with so many records in the state.
    Check(usize),
    /// A fetch with so many records in the command.
    Replayed(usize),
    Fresh(usize),
    /// A fetch of 4,096 bytes that joins records.
    Overlap,
    /// A fetch of a byte of one record among several.
    Search,
    /// A walk.
    Walk,
    /// A call that the byte map makes too.
    Map,
    /// A frame of a journal.
    Frame,
}

/// What is run.
pub enum Subject {
    /// A call or several, again and again after others.
    Calls { before: Vec<Call>, unit: Vec<Call> },
    /// Two journals, one of which has the frames of interest more. The log may
    /// find no room.
    Journals {
        whole: Vec<u8>,
        base: Vec<u8>,
        logged: bool,
    },
}

/// A row of the tables.
pub struct Case {
    pub group: Group,
    pub name: String,
    /// The length or the records that the case is about.
    pub size: usize,
    /// How many calls or frames of interest a run has; several calls that are
    /// measured together are one.
    pub units: usize,
    /// How many bytes they move.
    pub moved: usize,
    pub subject: Subject,
}

impl Case {
    fn new(group: Group, name: String, size: usize, units: usize, subject: Subject) -> Case {
        let mut case = Case {
            group,
            name,
            size,
            units,
            moved: 0,
            subject,
        };
        case.moved = by_case(&case);
        case
    }

    /// How many records one call of interest looks at, as the proved library replies.
    /// The log of a journal does not tell it.
    pub fn looked_at(&self) -> usize {
        match &self.subject {
            Subject::Calls { before, unit } => {
                let answers = answers::<Proved>(before, unit).into_iter();
                answers.map(Answer::looked_at).sum()
            }
            Subject::Journals { .. } => 0,
        }
    }

    /// Whether one run has what is measured only once, since a second time would
    /// not be the same.
    pub fn is_single(&self) -> bool {
        self.units == 1
    }
}

/// All cases.
pub fn all() -> Vec<Case> {
    let mut cases = calls::all();
    cases.extend(walks::all());
    cases.extend(maps::all());
    cases.extend(journals::all());
    cases
}

/// A number of things, in words.
fn counted(number: usize, thing: &str) -> String {
    let ending = if number == 1 { "" } else { "s" };
    format!("{number} {thing}{ending}")
}

/// Where records stand of which a fetch of 4,096 bytes at 0 meets every one.
fn spread(records: usize) -> impl Iterator<Item = usize> {
    (0..records).map(move |place| place * (LONGEST / records) + 8)
}
