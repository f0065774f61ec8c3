//! One input with what must be said of it, put to the program.

use std::io;
use std::path::Path;

use compare::child;
use compare::difference;
use compare::journals::journal;

use crate::journal::frames;
use crate::said::{self, Said};
use crate::script::script;

/// An input, what it is called, and what has to be said of it.
pub struct Case {
    pub name: String,
    pub arguments: &'static [&'static str],
    pub input: Vec<u8>,
    pub said: Said,
}

impl Case {
    /// A journal as frames and as steps, by the reference. The expectations of
    /// the steps depend on the seed.
    pub fn both(name: &str, journal: &[u8], seed: u64) -> [Case; 2] {
        let frames = frames(journal);
        let (steps, lines) = script(&frames, seed);
        [
            Case {
                name: format!("{name}, as frames"),
                arguments: &["--frames"],
                input: journal.to_vec(),
                said: said::of_frames(journal, &frames),
            },
            Case {
                name: format!("{name}, as steps"),
                arguments: &[],
                input: steps.into_bytes(),
                said: said::of_steps(&frames, &lines),
            },
        ]
    }

    /// The journal of a seed, both ways.
    pub fn of_seed(seed: u64) -> [Case; 2] {
        let journal = journal(seed);
        let name = format!("journal of seed {seed}, profile {}", journal.profile);
        Case::both(&name, &journal.bytes, seed)
    }

    /// Runs the program on the input, and says what is wrong, if anything is.
    /// An error means that the program could not be run.
    pub fn put_to(&self, program: &Path) -> io::Result<Option<String>> {
        let output = child::run(program, self.arguments, &self.input)?;
        let mut faults = String::new();
        if !output.status.success() {
            faults += &format!("  status: {}\n", output.status);
        }
        if let Some(difference) = difference::first(self.said.out.as_bytes(), &output.stdout) {
            faults += &difference.to_string();
        }
        if let Some(difference) = difference::first(self.said.errors.as_bytes(), &output.stderr) {
            faults += &format!("  on standard error\n{difference}");
        }
        Ok(Some(format!("differs: {}\n{faults}", self.name)).filter(|_| !faults.is_empty()))
    }
}
