//! The answers, counted by call and status.

use std::collections::BTreeMap;
use std::fmt;

use crate::answer::Answer;
use crate::call::Call;

/// The calls that have a status, with the numbers that can apply to each.
pub const CAN_APPLY: [(&str, &[u64]); 13] = [
    ("begin", &[6, 8, 20, 22]),
    ("fetch", &[4, 6, 7, 8, 9, 10, 20, 21, 23, 24]),
    ("end", &[6, 8, 20, 21]),
    ("host", &[4, 7, 9]),
    ("own", &[4, 6, 7, 8, 9, 20, 21, 23, 24]),
    ("show", &[6, 20, 21, 25]),
    ("walk", &[31, 10, 6, 7, 8, 20, 21, 32, 9, 23, 24]),
    ("read", &[1, 2, 3, 4, 5]),
    ("write", &[2, 3, 4, 5, 6, 10, 11]),
    ("map-begin", &[20, 22]),
    ("map-fetch", &[4, 30, 9, 10, 20, 21, 24]),
    ("map-end", &[20, 21]),
    ("map-own", &[4, 30, 9, 20, 21, 24]),
];

/// Calls by name and status, 0 for those that were accepted or have none.
#[derive(Clone, Debug, Default, PartialEq, Eq)]
pub struct Tally {
    counts: BTreeMap<(&'static str, u64), u64>,
}

impl Tally {
    /// Counts a call with its answer.
    pub fn count(&mut self, call: &Call, answer: &Answer) {
        let name = call.name();
        let has_status = CAN_APPLY.iter().any(|(listed, _)| *listed == name);
        let status = answer.numbers.first().filter(|_| has_status);
        let key = (name, status.copied().unwrap_or(0));
        *self.counts.entry(key).or_default() += 1;
    }

    /// Adds the counts of other calls.
    pub fn add(&mut self, other: &Tally) {
        for (key, count) in &other.counts {
            *self.counts.entry(*key).or_default() += count;
        }
    }

    /// How many calls there were.
    pub fn calls(&self) -> u64 {
        self.counts.values().sum()
    }

    /// How many of these calls had this status.
    pub fn count_of(&self, name: &'static str, status: u64) -> u64 {
        self.counts.get(&(name, status)).copied().unwrap_or(0)
    }

    /// What calls can answer and did not, in words.
    pub fn missing(&self) -> Vec<String> {
        let all = possible().into_iter();
        all.filter(|key| !self.counts.contains_key(key))
            .map(in_words)
            .collect()
    }

    /// What calls answered and cannot, in words.
    pub fn impossible(&self) -> Vec<String> {
        let possible = possible();
        let listed = |name| CAN_APPLY.iter().any(|(call, _)| *call == name);
        let seen = self.counts.keys().copied();
        seen.filter(|key| listed(key.0) && !possible.contains(key))
            .map(in_words)
            .collect()
    }
}

/// Each call with each status that it can give.
fn possible() -> Vec<(&'static str, u64)> {
    let statuses = |(name, numbers): &(&'static str, &'static [u64])| {
        let name = *name;
        [&[0], *numbers]
            .concat()
            .into_iter()
            .map(move |number| (name, number))
    };
    CAN_APPLY.iter().flat_map(statuses).collect()
}

fn in_words((name, number): (&str, u64)) -> String {
    format!("{name} with status {number}")
}

impl fmt::Display for Tally {
    fn fmt(&self, out: &mut fmt::Formatter<'_>) -> fmt::Result {
        let mut lines: BTreeMap<&str, Vec<String>> = BTreeMap::new();
        for ((name, status), count) in &self.counts {
            let line = lines.entry(name).or_default();
            line.push(format!("{status}: {count}"));
        }
        for (name, counts) in lines {
            writeln!(out, "  {name:11}{}", counts.join(", "))?;
        }
        Ok(())
    }
}
