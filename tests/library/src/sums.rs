//! All cases of a run, and its sums.

use std::collections::BTreeSet;
use std::fmt;

use compare::tally::{Tally, LETTERS};
use compare::workers;

use crate::case::{Case, Outcome};
use crate::fixed;
use crate::lent::{Room, ROOMS};

/// The refusals that a journal can bring about with buffers of any length.
const REFUSALS: [u8; 13] = [1, 2, 3, 4, 5, 7, 8, 9, 10, 21, 22, 23, 24];

/// Those of them that an own write can get.
const WRITE_REFUSALS: [u8; 6] = [7, 8, 9, 21, 23, 24];

/// The sums of a run.
#[derive(Default)]
pub struct Sums {
    cases: u64,
    complaints: Vec<String>,
    /// The lines of the random journals, and the lengths their outputs had.
    tally: Tally,
    rooms: BTreeSet<Room>,
}

/// Compares the fixed cases and so many journals from a seed on.
pub fn run(journals: u64, seed: u64) -> Sums {
    let mut sums = Sums::default();
    for case in fixed::cases() {
        sums.note(case.compare().complaint);
    }
    let of_place = |place: u64| Case::of_seed(seed.wrapping_add(place)).compare();
    for outcome in workers::share(journals, of_place) {
        sums.add(outcome);
    }
    sums
}

impl Sums {
    /// Counts a case, with what is wrong about it if anything is.
    fn note(&mut self, complaint: Option<String>) {
        self.cases += 1;
        self.complaints.extend(complaint);
    }

    /// Counts a random journal.
    fn add(&mut self, outcome: Outcome) {
        self.note(outcome.complaint);
        self.tally.add(&outcome.tally);
        self.rooms.insert(outcome.room);
    }

    /// What the random journals did not reach, in words.
    fn missing(&self) -> Vec<String> {
        let mut missing = self.tally.missing_of(&REFUSALS, &WRITE_REFUSALS);
        let rooms = ROOMS.iter().filter(|room| !self.rooms.contains(*room));
        missing.extend(rooms.map(|room| format!("an output with this room: {room:?}")));
        missing
    }

    /// Cases that differ, and what was not reached.
    pub fn failed(&self) -> u64 {
        (self.complaints.len() + self.missing().len()) as u64
    }

    /// Cases that agree, and what was reached.
    pub fn passed(&self) -> u64 {
        let refusals = REFUSALS.len() + WRITE_REFUSALS.len();
        let to_reach = (LETTERS.len() + refusals + ROOMS.len()) as u64;
        self.cases + to_reach - self.failed()
    }
}

impl fmt::Display for Sums {
    fn fmt(&self, out: &mut fmt::Formatter<'_>) -> fmt::Result {
        for complaint in &self.complaints {
            write!(out, "{complaint}")?;
        }
        writeln!(
            out,
            "cases compared: {}; in the random journals:",
            self.cases
        )?;
        write!(out, "{}", self.tally)?;
        for missing in self.missing() {
            writeln!(out, "never reached: {missing}")?;
        }
        writeln!(out, "{} passed, {} failed", self.passed(), self.failed())
    }
}
