//! How many bytes of payload a case moves: a fresh byte goes into the store and
//! to the destination, a replayed one to the destination, one that the host
//! writes into the window, and one that a command writes into the store and the
//! window. The spans of a walk go into its lists.

use crate::answer::Answer;
use crate::call::{answers, Call};
use crate::cases::{Case, Subject};
use crate::memory::Desk;
use crate::programs::Ordinary;
use plain::journal::replay;

/// The bytes of a span: an address and a length.
const SPAN: usize = 12;

/// The bytes that the calls or frames of interest of a case move.
pub fn by_case(case: &Case) -> usize {
    match &case.subject {
        Subject::Journals { whole, base, .. } => by_journal(whole) - by_journal(base),
        Subject::Calls { before, unit } => by_calls(before, unit) * case.units,
    }
}

fn by_calls(before: &[Call], unit: &[Call]) -> usize {
    let answers = answers::<Ordinary<true>>(before, unit);
    let answered = unit.iter().zip(answers);
    answered.map(|(call, answer)| by_call(*call, answer)).sum()
}

fn by_call(call: Call, answer: Answer) -> usize {
    match (call, answer) {
        (Call::Fetch { .. }, Answer::Searched(fresh, replayed, _)) => 2 * fresh + replayed,
        (Call::HostWrite { .. }, Answer::Numbers(bytes, _)) => bytes,
        (Call::OwnWrite { .. }, Answer::Numbers(bytes, _)) => 2 * bytes,
        (Call::Walk { .. }, Answer::Searched(spans, ..)) => SPAN * spans,
        _ => 0,
    }
}

fn by_journal(journal: &[u8]) -> usize {
    let mut desk = Desk::new(true);
    let [store, window, destination, output] = desk.lend();
    let run = replay::<true>(journal, store, window, destination, output);
    let log = String::from_utf8_lossy(desk.log(run.written));
    log.lines().map(by_line).sum()
}

fn by_line(line: &str) -> usize {
    let fields: Vec<&str> = line.split(' ').collect();
    let number = |place: usize| -> usize { fields[place].parse().unwrap_or(0) };
    match (fields[1], fields[2]) {
        ("F", "ok") => 2 * number(3) + number(4),
        ("H", "ok") => number(3),
        ("W", "ok") => 2 * number(3),
        _ => 0,
    }
}
