//! All calls of a run, and its sums.

use std::fmt;

use compare::workers;

use crate::file::Item;
use crate::map_lists;
use crate::pair::Pair;
use crate::random;
use crate::tally::Tally;

/// What came of some calls.
#[derive(Default)]
pub struct Outcome {
    pub tally: Tally,
    /// One for each call that went wrong.
    pub complaints: Vec<String>,
}

/// Carries out lines from the fresh state on.
pub fn carry_out(items: &[Item]) -> Outcome {
    let mut outcome = Outcome::default();
    let mut pair = Pair::new("no part");
    for item in items {
        let complaint = pair.carry_out(item, &mut outcome.tally);
        outcome.complaints.extend(complaint);
    }
    outcome
}

/// The sums of a run: of the file, and of the random lists.
pub struct Sums {
    file: Outcome,
    random: Outcome,
}

/// Makes the calls of the file, and at least so many random ones. Each seed has a
/// list of calls and one of calls of the byte map.
pub fn run(file: &[Item], calls: u64, seed: u64) -> Sums {
    let lists = calls.div_ceil(random::CALLS + map_lists::CALLS);
    let of_place = |place: u64| {
        let seed = seed.wrapping_add(place);
        let both = [random::list(seed), map_lists::list(seed)];
        both.map(|items| carry_out(&items))
    };
    let mut random = Outcome::default();
    for outcome in workers::share(lists, of_place).into_iter().flatten() {
        random.tally.add(&outcome.tally);
        random.complaints.extend(outcome.complaints);
    }
    Sums {
        file: carry_out(file),
        random,
    }
}

impl Sums {
    /// Calls that went wrong.
    fn wrong(&self) -> u64 {
        (self.file.complaints.len() + self.random.complaints.len()) as u64
    }

    /// Answers that no call can give, of both.
    fn impossible(&self) -> Vec<String> {
        let tallies = [&self.file.tally, &self.random.tally];
        tallies.into_iter().flat_map(Tally::impossible).collect()
    }

    /// Calls that went wrong, answers that the file did not reach, and answers
    /// that no call can give.
    pub fn failed(&self) -> u64 {
        self.wrong() + (self.file.tally.missing().len() + self.impossible().len()) as u64
    }

    /// Calls that went right.
    fn passed(&self) -> u64 {
        self.file.tally.calls() + self.random.tally.calls() - self.wrong()
    }
}

impl fmt::Display for Sums {
    fn fmt(&self, out: &mut fmt::Formatter<'_>) -> fmt::Result {
        for complaint in self.file.complaints.iter().chain(&self.random.complaints) {
            write!(out, "{complaint}")?;
        }
        for (name, outcome) in [("the file", &self.file), ("random lists", &self.random)] {
            let calls = outcome.tally.calls();
            writeln!(out, "calls of {name}: {calls}; by status:")?;
            write!(out, "{}", outcome.tally)?;
        }
        for missing in self.file.tally.missing() {
            writeln!(out, "never reached by the file: {missing}")?;
        }
        for impossible in self.impossible() {
            writeln!(out, "an answer that no call can give: {impossible}")?;
        }
        writeln!(out, "{} passed, {} failed", self.passed(), self.failed())
    }
}
