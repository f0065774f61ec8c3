//! What a call answers, as numbers.

use std::fmt;

use reference::refusal::Refusal;

/// The members of a reply in the order of its declaration. The status comes
/// first where there is one.
#[derive(Clone, Debug, PartialEq, Eq)]
pub struct Answer {
    pub numbers: Vec<u64>,
}

impl Answer {
    /// A reply without a status.
    pub fn new<const COUNT: usize>(numbers: [u64; COUNT]) -> Answer {
        Answer {
            numbers: numbers.to_vec(),
        }
    }

    /// A reply with its status, and its other members whatever that is.
    pub fn status<const COUNT: usize>(status: u32, members: [u64; COUNT]) -> Answer {
        let mut numbers = vec![u64::from(status)];
        numbers.extend(members);
        Answer { numbers }
    }

    /// The reply that stands for what the reference answers: of a refused call
    /// all members but the status are 0.
    pub fn of<const COUNT: usize>(result: Result<[u64; COUNT], Refusal>) -> Answer {
        match result {
            Ok(members) => Answer::status(0, members),
            Err(refusal) => Answer::status(u32::from(refusal.number()), [0; COUNT]),
        }
    }
}

impl fmt::Display for Answer {
    fn fmt(&self, out: &mut fmt::Formatter<'_>) -> fmt::Result {
        let words: Vec<String> = self.numbers.iter().map(u64::to_string).collect();
        write!(out, "{}", words.join(" "))
    }
}
