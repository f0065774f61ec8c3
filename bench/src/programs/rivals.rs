//! What people would write instead, as caches. They know no refusals but those of
//! a walk's entries, and a host write is no more than a copy.

use peers::bitmap::Bitmap;
use peers::ranges::Ranges;
use plain::walk::{take, walk_by, Transfer, ENTRIES, ENTRY};

use super::Cache;
use crate::answer::Answer;
use crate::memory::{Memory, WINDOW};

impl Cache for Ranges {
    fn new() -> Ranges {
        Ranges::default()
    }

    fn reset(&mut self) {
        (0..8).for_each(|command| Ranges::begin(self, command));
    }

    fn begin(&mut self, command: usize) -> impl Into<Answer> {
        Ranges::begin(self, command)
    }

    fn fetch(
        &mut self,
        memory: &mut Memory,
        command: usize,
        address: usize,
        length: usize,
    ) -> impl Into<Answer> {
        let destination = &mut memory.destination[..length];
        Ranges::fetch(self, &memory.window, destination, command, address)
    }

    fn own_write(
        &mut self,
        window: &mut [u8],
        command: usize,
        address: usize,
        bytes: &[u8],
    ) -> impl Into<Answer> {
        Ranges::own_write(self, window, command, address, bytes)
    }

    fn end(&mut self, command: usize) -> impl Into<Answer> {
        Ranges::end(self, command)
    }

    fn show(&mut self, command: usize, index: usize) -> impl Into<Answer> {
        Ranges::show(self, command, index).ok_or(25)
    }

    fn walk(
        &mut self,
        memory: &mut Memory,
        command: usize,
        transfer: &Transfer,
    ) -> impl Into<Answer> {
        walk(memory, transfer, |window, bytes, address| {
            Ranges::fetch(self, window, bytes, command, address);
        })
    }
}

/// It keeps no records, so it can show none, nor count them at the end.
impl Cache for Bitmap {
    fn new() -> Bitmap {
        Bitmap::of_window(WINDOW)
    }

    fn reset(&mut self) {
        (0..8).for_each(|command| Bitmap::begin(self, command));
    }

    fn begin(&mut self, command: usize) -> impl Into<Answer> {
        Bitmap::begin(self, command)
    }

    fn fetch(
        &mut self,
        memory: &mut Memory,
        command: usize,
        address: usize,
        length: usize,
    ) -> impl Into<Answer> {
        let destination = &mut memory.destination[..length];
        Bitmap::fetch(self, &memory.window, destination, command, address)
    }

    fn own_write(
        &mut self,
        window: &mut [u8],
        command: usize,
        address: usize,
        bytes: &[u8],
    ) -> impl Into<Answer> {
        Bitmap::own_write(self, window, command, address, bytes)
    }

    fn end(&mut self, command: usize) -> impl Into<Answer> {
        Answer::Second(Bitmap::end(self, command))
    }

    fn show(&mut self, _command: usize, _index: usize) -> impl Into<Answer> {
        Answer::Unknown
    }

    fn walk(
        &mut self,
        memory: &mut Memory,
        command: usize,
        transfer: &Transfer,
    ) -> impl Into<Answer> {
        walk(memory, transfer, |window, bytes, address| {
            Bitmap::fetch(self, window, bytes, command, address);
        })
    }
}

/// A walk whose entries are fetched, from a window into bytes at an address. It
/// stays a call, as those of the plain program do.
#[inline(never)]
fn walk(
    memory: &mut Memory,
    transfer: &Transfer,
    mut fetch: impl FnMut(&[u8], &mut [u8], usize),
) -> Result<usize, u8> {
    let (window, lists) = memory.walk();
    walk_by(lists, transfer, |address, entries| {
        let mut bytes = [0; ENTRY * ENTRIES];
        let bytes = &mut bytes[..ENTRY * entries.len()];
        fetch(window, bytes, address);
        take(bytes, entries)
    })
}
