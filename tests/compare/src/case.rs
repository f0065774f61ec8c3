//! One input with the log that it must give, put to a program.

use std::io;
use std::path::Path;

use reference::log;

use crate::child;
use crate::difference;
use crate::journals::journal;
use crate::said::said;
use crate::tally::Tally;

/// An input, what it is called, and what has to be printed for it.
pub struct Case {
    pub name: String,
    pub input: Vec<u8>,
    pub expected: Vec<u8>,
}

/// What came of a case.
pub struct Outcome {
    /// What the lines of the expected log say.
    pub tally: Tally,
    /// What is wrong, if anything is, with the name of the case.
    pub complaint: Option<String>,
}

impl Case {
    pub fn new(name: &str, input: impl Into<Vec<u8>>, expected: impl Into<Vec<u8>>) -> Case {
        Case {
            name: name.to_string(),
            input: input.into(),
            expected: expected.into(),
        }
    }

    /// A case whose log the reference gives.
    pub fn of_reference(name: &str, input: impl Into<Vec<u8>>) -> Case {
        let input = input.into();
        let expected = log::run(&input);
        Case::new(name, input, expected)
    }

    /// The journal of a seed.
    pub fn of_seed(seed: u64) -> Case {
        let journal = journal(seed);
        let name = format!("journal of seed {seed}, profile {}", journal.profile);
        Case::of_reference(&name, journal.bytes)
    }

    /// Runs the program on the input. Standard output must be the expected log,
    /// standard error what is to be said of it, and the status 0. An error means
    /// that the program could not be run.
    pub fn put_to(&self, program: &Path) -> io::Result<Outcome> {
        let output = child::run(program, &[], &self.input)?;
        let said = said(&self.input, &self.expected);
        let mut faults = vec![];
        if !output.status.success() {
            faults.push(format!("  status: {}\n", output.status));
        }
        if let Some(difference) = difference::first(&self.expected, &output.stdout) {
            faults.push(difference.to_string());
        }
        if let Some(difference) = difference::first(said.as_bytes(), &output.stderr) {
            faults.push(format!("  on standard error\n{difference}"));
        }
        let complaint = format!("differs: {}\n{}", self.name, faults.concat());
        Ok(Outcome {
            tally: Tally::of_log(&self.expected),
            complaint: Some(complaint).filter(|_| !faults.is_empty()),
        })
    }
}
