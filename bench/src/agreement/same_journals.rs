//! Journals leave the same log, counts and buffers.

use compare::journals::journal;

use crate::cases::{Case, Subject};
use crate::memory::Desk;
use crate::work::{replay_of, COLUMNS};

/// How many random journals the programs run.
const JOURNALS: u64 = 160;

/// The name of a journal after which something is not the same.
pub fn difference(cases: &[Case]) -> Option<String> {
    let wrong = cases.iter().find(|case| match &case.subject {
        Subject::Journals {
            whole,
            base,
            logged,
        } => differ(whole, *logged) || differ(base, *logged),
        Subject::Calls { .. } => false,
    });
    let seed = || (0..JOURNALS).find(|seed| differ(&journal(*seed).bytes, true));
    wrong
        .map(|case| case.name.clone())
        .or_else(|| Some(format!("journal of seed {}", seed()?)))
}

/// Whether the programs leave different buffers or counts.
fn differ(input: &[u8], logged: bool) -> bool {
    let left = COLUMNS.into_iter().filter_map(replay_of).map(|replay| {
        let mut desk = Desk::new(logged);
        let run = replay(&mut desk, input);
        (run, desk)
    });
    let left: Vec<_> = left.collect();
    left.iter().any(|one| *one != left[0])
}
