//! Random calls of the cache, walks among them.

use plain::walk::{Transfer, ENTRIES, ENTRY, LONGEST, PAGE, SPANS};
use sampling::generator::Generator;
use sampling::spans;

use super::source::{Source, Spans};
use crate::call::Call;
use crate::memory::WINDOW;

/// The ways in which lists choose their spans.
const WAYS: [Spans; 8] = [
    (spans::any_size, WINDOW as u64),
    (spans::touching, 600),
    (spans::at_the_end, WINDOW as u64),
    (spans::overlapping, 2_000),
    (spans::medium, 3_000),
    (spans::large, 9_000),
    (spans::every_other, 260),
    (spans::small, 1_500),
];

/// How many pages the window has.
const PAGES: u64 = (WINDOW / PAGE) as u64;

/// A source of calls; each seed has one of the ways.
pub fn source(seed: u64) -> Source {
    Source::new(seed, &WAYS)
}

/// A call of any kind but a walk, mostly on two commands.
pub fn any_call(source: &mut Source) -> Call {
    let command = any_command(&mut source.numbers);
    let (address, length) = source.span();
    match source.numbers.below(60) {
        0 => Call::End { command },
        1..=5 => Call::Begin { command },
        6..=7 => Call::HostWrite { address, length },
        8..=13 => Call::OwnWrite {
            command,
            address,
            length,
        },
        14..=15 => Call::Show {
            command,
            index: source.numbers.below(20) as usize,
        },
        _ => Call::Fetch {
            command,
            address,
            length,
        },
    }
}

fn any_command(numbers: &mut Generator) -> usize {
    match numbers.below(40) {
        0 => 8,
        1 => usize::MAX,
        2..=5 => numbers.below(8) as usize,
        _ => numbers.below(2) as usize,
    }
}

/// Such a call, or a walk, in half of the cases behind a list that the host puts
/// where the walk finds it.
pub fn any_calls(source: &mut Source) -> Vec<Call> {
    if !source.numbers.one_in(5) {
        return vec![any_call(source)];
    }
    let numbers = &mut source.numbers;
    let (command, transfer) = (any_command(numbers), any_transfer(numbers));
    let mut calls = vec![];
    if numbers.one_in(2) {
        calls = any_list(numbers, transfer.prp2 as usize);
    }
    calls.push(Call::Walk { command, transfer });
    calls
}

/// A transfer of any number of pages; a few are too long or have no bytes.
pub fn any_transfer(numbers: &mut Generator) -> Transfer {
    let prp1 = any_page(numbers) + 4 * numbers.below(1_024);
    let last = match numbers.below(3) {
        0 => numbers.below(3),
        1 => numbers.below(SPANS as u64),
        _ => SPANS as u64 - 1,
    };
    let end = PAGE as u64 * last + numbers.between(1, PAGE as u64);
    let length = end.saturating_sub(prp1 % PAGE as u64) as usize;
    Transfer {
        prp1: prp1 + now_and_then(numbers, 40, 2),
        prp2: any_second(numbers),
        length: match numbers.below(40) {
            0 => 0,
            1 => LONGEST + 1,
            2 => usize::MAX - length,
            _ => length.clamp(1, LONGEST),
        },
    }
}

/// An address of a page, or of a list: at the beginning or the end of a page of the
/// window, a few of them behind it or not a multiple of 8.
fn any_second(numbers: &mut Generator) -> u64 {
    let entry = ENTRY as u64;
    let page = PAGE as u64 * numbers.below(PAGES);
    match numbers.below(20) {
        0..=3 => any_page(numbers),
        4 => page + numbers.below(PAGE as u64),
        5 => u64::MAX - 7 - entry * numbers.below(ENTRIES as u64),
        6..=11 => page + entry * numbers.below(24),
        _ => page + PAGE as u64 - entry * numbers.between(1, ENTRIES as u64 + 2),
    }
}

/// One in so many times a number with one bit set of so many, and else 0.
fn now_and_then(numbers: &mut Generator, times: u64, bits: u64) -> u64 {
    match numbers.one_in(times) {
        true => 1 << numbers.below(bits),
        false => 0,
    }
}

fn any_page(numbers: &mut Generator) -> u64 {
    PAGE as u64 * numbers.below(1 << 48)
}

/// The longest list from an address on. The last entry of its page leads to any page
/// of the window or the one behind it. A few entries are no multiple of a page.
pub fn any_list(numbers: &mut Generator, address: usize) -> Vec<Call> {
    let mut next = address;
    let mut calls = vec![];
    for _ in 0..=ENTRIES {
        let is_last = next % PAGE == PAGE - ENTRY;
        let onward = PAGE as u64 * numbers.below(PAGES + 1);
        let entry = if is_last { onward } else { any_page(numbers) };
        let entry = entry + now_and_then(numbers, 150, 12);
        calls.push(Call::HostEntry {
            address: next,
            entry,
        });
        next = if is_last {
            onward as usize
        } else {
            next.wrapping_add(ENTRY)
        };
    }
    calls
}
