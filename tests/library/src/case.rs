//! One journal with its buffers, run by the library and by the reference.

use boundary::{journal_replay, Replayed};
use compare::journals::journal;
use compare::tally::Tally;
use sampling::generator::Generator;

use crate::expected::Expected;
use crate::lent::{self, Buffers, Room};

/// Added to a journal's seed, so that its buffers are drawn apart from it.
const APART: u64 = 1 << 40;

/// A journal, what is lent to it, and what the reference makes of it.
pub struct Case {
    name: String,
    input: Vec<u8>,
    given: Buffers,
    expected: Expected,
    room: Room,
}

/// What came of a case: the lines of its log, and what differed.
pub struct Outcome {
    pub tally: Tally,
    pub room: Room,
    pub complaint: Option<String>,
}

impl Case {
    /// The journal of a seed, with buffers by the same seed.
    pub fn of_seed(seed: u64) -> Case {
        let journal = journal(seed);
        let name = format!("journal of seed {seed}, profile {}", journal.profile);
        let mut numbers = Generator::new(seed.wrapping_add(APART));
        let buffers = lent::without_output(&mut numbers);
        let choose = |log: usize| lent::output(&mut numbers, log);
        Case::new(name, journal.bytes, buffers, choose)
    }

    /// An input on the buffers of the log program, with an output of a length.
    pub fn plain(name: &str, input: &[u8], output: usize) -> Case {
        let choose = |_| (Room::Ample, vec![0; output]);
        let buffers = lent::of_the_log_program();
        Case::new(name.to_string(), input.to_vec(), buffers, choose)
    }

    /// A case whose output is chosen when the length of the log is known.
    fn new(
        name: String,
        input: Vec<u8>,
        mut given: Buffers,
        choose: impl FnOnce(usize) -> (Room, Vec<u8>),
    ) -> Case {
        let mut expected = Expected::of(&input, given.clone());
        let (room, output) = choose(expected.run.log.len());
        expected.buffers.output = output.clone();
        given.output = output;
        Case {
            name,
            input,
            given,
            expected,
            room,
        }
    }

    /// Runs the library and compares its reply and every buffer.
    pub fn compare(self) -> Outcome {
        let tally = Tally::of_log(self.expected.run.log.as_bytes());
        let (right, expected) = self.expected.leaves();
        let (reply, found) = run_library(&self.input, self.given);
        let mut wrong = different_members(&right, &reply);
        wrong.extend(different_buffers(&expected, &found));
        let complaint = format!("differs: {}: {}\n", self.name, wrong.join(", "));
        Outcome {
            tally,
            room: self.room,
            complaint: Some(complaint).filter(|_| !wrong.is_empty()),
        }
    }
}

/// What the library replies, and the buffers after it.
fn run_library(input: &[u8], mut buffers: Buffers) -> (Replayed, Buffers) {
    let reply = journal_replay(
        input,
        &mut buffers.store,
        &mut buffers.window,
        &mut buffers.destination,
        &mut buffers.output,
    );
    (reply, buffers)
}

/// The names of the reply's members that are not equal.
fn different_members(expected: &Replayed, found: &Replayed) -> Vec<&'static str> {
    unequal([
        ("written", expected.written == found.written),
        ("carried", expected.carried == found.carried),
        ("refused", expected.refused == found.refused),
        ("early", expected.early == found.early),
    ])
}

/// The names of the buffers that are not equal.
fn different_buffers(expected: &Buffers, found: &Buffers) -> Vec<&'static str> {
    unequal([
        ("store", expected.store == found.store),
        ("window", expected.window == found.window),
        ("destination", expected.destination == found.destination),
        ("output", expected.output == found.output),
    ])
}

/// The names that are not marked as equal.
fn unequal(marked: [(&'static str, bool); 4]) -> Vec<&'static str> {
    let wrong = marked.into_iter().filter(|(_, equal)| !equal);
    wrong.map(|(name, _)| name).collect()
}

#[cfg(test)]
mod tests {
    use super::*;

    /// A change of one byte in a buffer, by the buffer's name.
    fn changed(name: &str, mut buffers: Buffers) -> Buffers {
        let buffer = match name {
            "store" => &mut buffers.store,
            "window" => &mut buffers.window,
            "destination" => &mut buffers.destination,
            _ => &mut buffers.output,
        };
        buffer[0] ^= 1;
        buffers
    }

    #[test]
    fn one_changed_byte_is_named() {
        let mut given = lent::of_the_log_program();
        given.output = vec![0; 10];
        assert!(different_buffers(&given, &given).is_empty());
        for name in ["store", "window", "destination", "output"] {
            let found = changed(name, given.clone());
            assert_eq!(different_buffers(&given, &found), [name]);
        }
    }

    #[test]
    fn one_changed_member_is_named() {
        let right = Expected::of(&[0; 11], lent::of_the_log_program());
        let (right, _) = right.leaves();
        let (written, carried) = (right.written + 1, right.carried + 1);
        let (refused, early) = (right.refused + 1, right.early ^ 1);
        let changes = [
            ("written", Replayed { written, ..right }),
            ("carried", Replayed { carried, ..right }),
            ("refused", Replayed { refused, ..right }),
            ("early", Replayed { early, ..right }),
        ];
        assert!(different_members(&right, &right).is_empty());
        for (name, found) in changes {
            assert_eq!(different_members(&right, &found), [name]);
        }
    }

    #[test]
    fn a_library_that_is_given_other_bytes_differs() {
        let mut case = Case::of_seed(0);
        case.given.window[0] ^= 1;
        assert!(case.compare().complaint.is_some());
        assert!(Case::of_seed(0).compare().complaint.is_none());
    }
}
