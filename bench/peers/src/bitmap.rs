//! For each command a bit for each address of the window, and a shadow of the
//! window with the bytes of the addresses whose bit is set.

use std::ops::Range;

use crate::{write, COMMANDS};

const BITS: usize = u64::BITS as usize;

struct Command {
    map: Vec<u64>,
    shadow: Vec<u8>,
    held: usize,
}

/// All commands.
pub struct Bitmap {
    commands: [Command; COMMANDS],
}

impl Bitmap {
    /// For windows of so many bytes.
    pub fn of_window(window: usize) -> Bitmap {
        Bitmap {
            commands: std::array::from_fn(|_| Command {
                map: vec![0; window.div_ceil(BITS)],
                shadow: vec![0; window],
                held: 0,
            }),
        }
    }

    /// A command that begins holds nothing.
    pub fn begin(&mut self, command: usize) {
        let entry = &mut self.commands[command];
        entry.map.fill(0);
        entry.held = 0;
    }

    /// Replies how many distinct bytes the command had.
    pub fn end(&self, command: usize) -> usize {
        self.commands[command].held
    }

    /// Replies the fresh and the replayed bytes.
    pub fn fetch(
        &mut self,
        window: &[u8],
        destination: &mut [u8],
        command: usize,
        address: usize,
    ) -> (usize, usize) {
        let entry = &mut self.commands[command];
        let end = address + destination.len();
        let fresh = entry.hold(address, end, |shadow, gap| {
            shadow[gap.clone()].copy_from_slice(&window[gap]);
        });
        destination.copy_from_slice(&entry.shadow[address..end]);
        (fresh, destination.len() - fresh)
    }

    /// Replies how many bytes were written and how many of them are new.
    pub fn own_write(
        &mut self,
        window: &mut [u8],
        command: usize,
        address: usize,
        bytes: &[u8],
    ) -> (usize, usize) {
        let entry = &mut self.commands[command];
        let end = address + write(window, address, bytes);
        let new = entry.hold(address, end, |_, _| {});
        entry.shadow[address..end].copy_from_slice(bytes);
        (bytes.len(), new)
    }
}

impl Command {
    /// Sets the bits from one address to another, uses each gap of them that were
    /// not set, and answers how many those were.
    fn hold(
        &mut self,
        address: usize,
        end: usize,
        mut each: impl FnMut(&mut [u8], Range<usize>),
    ) -> usize {
        let mut new = 0;
        let mut at = self.next(address, end, false);
        while at < end {
            let stop = self.next(at, end, true);
            each(&mut self.shadow, at..stop);
            self.set(at, stop);
            new += stop - at;
            at = self.next(stop, end, false);
        }
        self.held += new;
        new
    }

    /// The first address from one on whose bit is as asked, or the end.
    fn next(&self, from: usize, end: usize, bit: bool) -> usize {
        let flip = if bit { 0 } else { u64::MAX };
        let words = &self.map[from / BITS..end.div_ceil(BITS)];
        let Some((head, tail)) = words.split_first() else {
            return end;
        };
        let head = (head ^ flip) & (u64::MAX << (from % BITS));
        let bit_of = |place: usize, word: u64| place * BITS + word.trailing_zeros() as usize;
        let found = if head != 0 {
            Some(bit_of(from / BITS, head))
        } else {
            let place = tail.iter().position(|word| word ^ flip != 0);
            place.map(|place| bit_of(from / BITS + 1 + place, tail[place] ^ flip))
        };
        found.map_or(end, |found| end.min(found))
    }

    /// Sets the bits of one address or more.
    fn set(&mut self, from: usize, to: usize) {
        let (first, last) = (from / BITS, (to - 1) / BITS);
        let low = u64::MAX << (from % BITS);
        let high = u64::MAX >> (BITS - 1 - (to - 1) % BITS);
        if first == last {
            self.map[first] |= low & high;
        } else {
            self.map[first] |= low;
            self.map[first + 1..last].fill(u64::MAX);
            self.map[last] |= high;
        }
    }
}
