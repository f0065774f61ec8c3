//! For each command a map from the first address of a range to its bytes.
//! Ranges that share a byte with a fetch or touch it are joined with it.

use std::collections::BTreeMap;
use std::mem::take;
use std::ops::Bound::{Excluded, Included};
use std::ops::Range;

use crate::{write, COMMANDS};

type Held = BTreeMap<usize, Vec<u8>>;

/// One address up to and without another.
type Span = Range<usize>;

/// All commands.
#[derive(Default)]
pub struct Ranges {
    commands: [Held; COMMANDS],
}

impl Ranges {
    pub fn begin(&mut self, command: usize) {
        self.commands[command].clear();
    }

    /// Replies how many ranges and distinct bytes the command had.
    pub fn end(&mut self, command: usize) -> (usize, usize) {
        let held = take(&mut self.commands[command]);
        (held.len(), held.values().map(Vec::len).sum())
    }

    /// A range of a command, counted from 0: its first address and its length.
    pub fn show(&self, command: usize, index: usize) -> Option<(usize, usize)> {
        let (start, bytes) = self.commands[command].iter().nth(index)?;
        Some((*start, bytes.len()))
    }

    /// Replies the fresh and the replayed bytes.
    pub fn fetch(
        &mut self,
        window: &[u8],
        destination: &mut [u8],
        command: usize,
        address: usize,
    ) -> (usize, usize) {
        let length = destination.len();
        let held = &mut self.commands[command];
        let deliver = |span: &mut [u8]| destination.copy_from_slice(span);
        let fresh = hold(held, window, address..address + length, deliver);
        (fresh, length - fresh)
    }

    /// Replies how many bytes were written and how many of them are new.
    pub fn own_write(
        &mut self,
        window: &mut [u8],
        command: usize,
        address: usize,
        bytes: &[u8],
    ) -> (usize, usize) {
        let length = write(window, address, bytes);
        let held = &mut self.commands[command];
        let put = |span: &mut [u8]| span.copy_from_slice(bytes);
        (length, hold(held, window, address..address + length, put))
    }
}

/// Uses the held bytes of a span, of which those that were not held come from the
/// window. Answers how many these are.
fn hold(held: &mut Held, window: &[u8], span: Span, then: impl FnOnce(&mut [u8])) -> usize {
    if span.is_empty() {
        return 0;
    }
    if let Some((start, bytes)) = held.range_mut(..=span.start).next_back() {
        if let Some(bytes) = bytes.get_mut(span.start - start..span.end - start) {
            then(bytes);
            return 0;
        }
    }
    join(held, window, span, then)
}

/// Makes one range of a span and all that it meets, and uses the span in it. The
/// lowest range grows where it stands. Answers how many bytes of the span were
/// not held.
fn join(held: &mut Held, window: &[u8], span: Span, then: impl FnOnce(&mut [u8])) -> usize {
    let Span {
        start: address,
        end,
    } = span;
    let (low, mut joined) = match held.range_mut(..=address).next_back() {
        Some((start, bytes)) if start + bytes.len() >= address => (*start, take(bytes)),
        _ => (address, Vec::with_capacity(end - address)),
    };
    let mut fresh = 0;
    let mut add = |joined: &mut Vec<u8>, stop: usize| {
        let gap = &window[low + joined.len()..stop];
        fresh += gap.len();
        joined.extend_from_slice(gap);
    };
    let above = (Excluded(low), Included(end));
    for (start, bytes) in held.extract_if(above, |_, _| true) {
        add(&mut joined, start);
        joined.extend_from_slice(&bytes);
    }
    if low + joined.len() < end {
        add(&mut joined, end);
    }
    then(&mut joined[address - low..end - low]);
    held.insert(low, joined);
    fresh
}
