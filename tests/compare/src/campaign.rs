//! All cases of a run, and its sums.

use std::fmt;
use std::io::{self, Write};
use std::path::{self, Path};

use sampling::arguments::Arguments;

use crate::case::{Case, Outcome};
use crate::fixed;
use crate::tally::{Tally, LETTERS, REFUSALS, WRITE_REFUSALS};
use crate::workers;

/// So many journals are compared before the sums are looked at again.
const BATCH: u64 = 250;

/// The sums of a run.
#[derive(Default)]
pub struct Sums {
    fixed: u64,
    journals: u64,
    /// Cases in which the program was wrong.
    wrong: u64,
    /// The lines of the random journals.
    tally: Tally,
}

/// Compares all that the arguments ask for, and writes down each complaint.
pub fn run(arguments: &Arguments<3>, out: &mut impl Write) -> io::Result<Sums> {
    let program = path::absolute(&arguments.program)?;
    let [journals, seed, frames] = arguments.numbers;
    let mut sums = Sums::default();
    compare_fixed(&program, &mut sums, out)?;
    while sums.journals < journals || sums.tally.frames < frames {
        let missing = journals.saturating_sub(sums.journals);
        let count = if missing == 0 {
            BATCH
        } else {
            missing.min(BATCH)
        };
        let first = seed.wrapping_add(sums.journals);
        compare_journals(&program, first, count, &mut sums, out)?;
    }
    Ok(sums)
}

fn compare_fixed(program: &Path, sums: &mut Sums, out: &mut impl Write) -> io::Result<()> {
    let cases = fixed::cases();
    let count = cases.len() as u64;
    let outcomes = workers::share(count, |place| cases[place as usize].put_to(program));
    for outcome in outcomes {
        sums.note(&outcome?, out)?;
    }
    sums.fixed = count;
    Ok(())
}

/// Compares so many journals from a seed on.
fn compare_journals(
    program: &Path,
    first: u64,
    count: u64,
    sums: &mut Sums,
    out: &mut impl Write,
) -> io::Result<()> {
    let of_place = |place| Case::of_seed(first.wrapping_add(place));
    let outcomes = workers::share(count, |place| of_place(place).put_to(program));
    for outcome in outcomes {
        let outcome = outcome?;
        sums.note(&outcome, out)?;
        sums.tally.add(&outcome.tally);
    }
    sums.journals += count;
    Ok(())
}

impl Sums {
    /// Counts a case that went wrong and writes the complaint.
    fn note(&mut self, outcome: &Outcome, out: &mut impl Write) -> io::Result<()> {
        if let Some(complaint) = &outcome.complaint {
            self.wrong += 1;
            write!(out, "{complaint}")?;
        }
        Ok(())
    }

    /// Wrong cases, and what the journals did not reach.
    pub fn failed(&self) -> u64 {
        self.wrong + self.tally.missing().len() as u64
    }

    /// Right cases, and what the journals reached.
    pub fn passed(&self) -> u64 {
        let to_reach = (LETTERS.len() + REFUSALS.len() + WRITE_REFUSALS.len()) as u64;
        self.fixed + self.journals + to_reach - self.failed()
    }
}

impl fmt::Display for Sums {
    fn fmt(&self, out: &mut fmt::Formatter<'_>) -> fmt::Result {
        writeln!(out, "fixed cases compared: {}", self.fixed)?;
        writeln!(
            out,
            "random journals compared: {}; in these:",
            self.journals
        )?;
        write!(out, "{}", self.tally)?;
        for missing in self.tally.missing() {
            writeln!(out, "never reached: {missing}")?;
        }
        writeln!(out, "{} passed, {} failed", self.passed(), self.failed())
    }
}
