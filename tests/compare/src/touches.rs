//! Stretches of fetches and own writes that touch held spans on the lower side,
//! on the upper side and on both, and single bytes that become one record.

use sampling::generator::Generator;

use crate::draft::{Draft, WINDOW};

/// The most records of a command.
const RECORDS: u64 = 64;

/// One stretch of any kind, from a new begin of any command to its end, which
/// tells how many records there were.
pub fn any_touches(draft: &mut Draft) {
    let command = draft.numbers.below(8);
    draft.begin_anew(command);
    match draft.numbers.below(3) {
        0 => beside(draft, command),
        1 => chain(draft, command),
        _ => full_chain(draft, command),
    }
    draft.end(command);
}

/// Spans that touch earlier ones: below, above, between two, and without a
/// byte.
fn beside(draft: &mut Draft, command: u64) {
    let middle = draft.numbers.between(3_000, WINDOW - 3_000);
    draft.fetch(command, middle, 4);
    for _ in 0..draft.numbers.between(3, 40) {
        let Some((start, length)) = draft.earlier_span(command) else {
            return;
        };
        let end = start + length;
        let other = draft.numbers.between(1, 40);
        match draft.numbers.below(4) {
            0 => draft.fetch_or_write(command, start - other, other),
            1 => draft.fetch_or_write(command, end, other),
            2 => {
                let between = draft.numbers.between(1, 20);
                draft.fetch_or_write(command, end + between, other);
                draft.fetch_or_write(command, end, between);
            }
            _ => {
                draft.fetch_or_write(command, end, 0);
                draft.fetch_or_write(command, start, 0);
            }
        }
    }
}

/// Single bytes with one address between each two, and then the bytes between
/// them, until all are one record or the end shows how many there are.
fn chain(draft: &mut Draft, command: u64) {
    let count = draft.numbers.between(2, RECORDS);
    let start = singles(draft, command, count);
    let closed = if draft.numbers.one_in(3) {
        draft.numbers.below(count)
    } else {
        count - 1
    };
    let gaps = shuffled(&mut draft.numbers, count - 1);
    for gap in &gaps[..closed as usize] {
        draft.fetch_or_write(command, start + 2 * gap + 1, 1);
    }
}

/// As many single bytes as there may be records. Bytes that touch one of them
/// are accepted, another is not (24); each gap that is closed leaves room for
/// one.
fn full_chain(draft: &mut Draft, command: u64) {
    let start = singles(draft, command, RECORDS);
    let mut apart = (start + 1_000) % (WINDOW - 1_000);
    draft.fetch(command, apart, 1);
    draft.fetch(command, (start + 2 * RECORDS - 1).min(WINDOW - 1), 1);
    draft.fetch(command, start.saturating_sub(1), 1);
    draft.fetch(command, apart, 1);
    let gaps = shuffled(&mut draft.numbers, RECORDS - 1);
    let closed = draft.numbers.between(1, RECORDS - 1);
    for gap in &gaps[..closed as usize] {
        draft.fetch_or_write(command, start + 2 * gap + 1, 1);
        draft.fetch(command, apart, 1);
        draft.fetch(command, apart + 2, 1);
        apart += 2;
    }
}

/// Fetches so many bytes, two addresses apart, in any order, and answers where
/// the first one is: often at the front or at the end of the window.
fn singles(draft: &mut Draft, command: u64, count: u64) -> u64 {
    let last = WINDOW - (2 * count - 1);
    let start = match draft.numbers.below(4) {
        0 => 0,
        1 => last,
        _ => draft.numbers.below(last),
    };
    for place in shuffled(&mut draft.numbers, count) {
        draft.fetch_or_write(command, start + 2 * place, 1);
    }
    start
}

/// The numbers below the bound, in any order.
fn shuffled(numbers: &mut Generator, bound: u64) -> Vec<u64> {
    let mut all: Vec<u64> = (0..bound).collect();
    for place in (1..all.len()).rev() {
        all.swap(place, numbers.below(place as u64 + 1) as usize);
    }
    all
}
