//! All cases, and what came of them.

use std::fmt;
use std::io;
use std::path::Path;

use compare::fixed;
use compare::workers;
use reference::log::INPUT_BYTES;

use crate::case::Case;

/// What must be among the lines of the cases; each is a check of its own.
pub const TO_REACH: [&str; 39] = [
    " begins\n",
    " ends: 0 records, 0 bytes\n",
    " ends: 1 record, 1 byte\n",
    " ends: 1 record, 4096 bytes\n",
    " ends: 64 records, ",
    "the host writes ",
    ") the host writes ",
    ": nothing\n",
    " writes ",
    "+1: fresh ",
    "+1: replayed ",
    ", fresh ",
    ", replayed ",
    "+0: nothing; no records\n",
    "+0: nothing; records ",
    ": fresh 0+",
    "+1: over ",
    "+1: new ",
    ", over ",
    ", new ",
    " writes 40+0: nothing; records 14+8\n",
    " writes 16384+0: nothing; no records\n",
    "...) command ",
    "begins: refused (22): the command is open already\n",
    "ends: refused (21): the command is not open\n",
    ": refused (1): the frame ends before its fifth byte\n",
    ": refused (2): no kind of step has this number\n",
    ": refused (3): a field or bit that must be zero is not\n",
    ": refused (4): the length is above 4096\n",
    ": refused (5): data and length do not agree\n",
    ": refused (9): the span ends beyond the window\n",
    ": refused (21): the command is not open\n",
    ": refused (23): the command would hold more than 4096 bytes\n",
    ": refused (24): the command would have more than 64 records\n",
    "writes 4196+1: refused (23): the command would hold more than 4096 bytes\n",
    "writes 148+1: refused (24): the command would have more than 64 records\n",
    ", but ok",
    ", but no",
    " held, 0 failed\n",
];

/// The sums of a run.
pub struct Sums {
    cases: u64,
    complaints: Vec<String>,
    reached: [bool; TO_REACH.len()],
}

/// What came of two cases.
struct Outcome {
    complaints: Vec<String>,
    reached: [bool; TO_REACH.len()],
}

/// Compares fixed journals, and so many random ones from a seed on.
pub fn run(program: &Path, journals: u64, seed: u64) -> io::Result<Sums> {
    let mut fixed = fixed::cases();
    fixed.retain(|case| case.input.len() <= INPUT_BYTES);
    let of_place = |place: u64| match fixed.get(place as usize) {
        Some(case) => Case::both(&case.name, &case.input, place),
        None => Case::of_seed(seed.wrapping_add(place - fixed.len() as u64)),
    };
    let count = fixed.len() as u64 + journals;
    let outcomes = workers::share(count, |place| compare(&of_place(place), program));
    let mut sums = Sums {
        cases: 2 * count,
        complaints: vec![],
        reached: [false; TO_REACH.len()],
    };
    for outcome in outcomes {
        sums.add(outcome?);
    }
    Ok(sums)
}

fn compare(cases: &[Case], program: &Path) -> io::Result<Outcome> {
    let mut complaints = vec![];
    for case in cases {
        complaints.extend(case.put_to(program)?);
    }
    let has = |text: &str| {
        let mut texts = cases.iter().map(|case| &case.said);
        texts.any(|said| said.out.contains(text) || said.errors.contains(text))
    };
    Ok(Outcome {
        complaints,
        reached: TO_REACH.map(has),
    })
}

impl Sums {
    fn add(&mut self, outcome: Outcome) {
        self.complaints.extend(outcome.complaints);
        for (reached, also) in self.reached.iter_mut().zip(outcome.reached) {
            *reached |= also;
        }
    }

    /// What no line has.
    fn missing(&self) -> impl Iterator<Item = &str> {
        let checked = TO_REACH.iter().zip(self.reached);
        checked.filter_map(|(text, reached)| (!reached).then_some(*text))
    }

    /// Cases that differ, and what was not reached.
    pub fn failed(&self) -> u64 {
        (self.complaints.len() + self.missing().count()) as u64
    }

    /// Cases that do not differ, and what was reached.
    pub fn passed(&self) -> u64 {
        self.cases + TO_REACH.len() as u64 - self.failed()
    }
}

impl fmt::Display for Sums {
    fn fmt(&self, out: &mut fmt::Formatter<'_>) -> fmt::Result {
        for complaint in &self.complaints {
            write!(out, "{complaint}")?;
        }
        for missing in self.missing() {
            writeln!(out, "never reached: {missing:?}")?;
        }
        writeln!(
            out,
            "journals compared, as frames and as steps: {}",
            self.cases / 2
        )?;
        writeln!(out, "{} passed, {} failed", self.passed(), self.failed())
    }
}
