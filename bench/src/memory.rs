//! The buffers that calls and journals get.

use plain::state::STORE;
use plain::walk::{Lists, SCRATCH, SPANS};

use crate::buffer::Buffer;

/// The length of the window.
pub const WINDOW: usize = 16_384;

/// Room for the longest log of a case.
const OUTPUT: usize = 1 << 20;

/// The most bytes that a write can be asked for, more than it may have.
const LONGEST: usize = 4_200;

/// An eighth of a page lies between any two buffers, pages left out.
const EIGHTH: usize = 512;

/// A store of the right length, which is zero.
pub fn store() -> Buffer {
    store_of(STORE)
}

/// A store of any length.
pub fn store_of(length: usize) -> Buffer {
    Buffer::zeroed(2 * EIGHTH, length)
}

/// The scratch of a walk.
pub fn scratch() -> Buffer {
    scratch_of(SCRATCH)
}

/// A scratch of any length.
pub fn scratch_of(length: usize) -> Buffer {
    Buffer::zeroed(EIGHTH, length)
}

/// What a call gets beside its numbers and what the cache keeps.
#[derive(Clone, PartialEq)]
pub struct Memory {
    pub window: Buffer,
    pub destination: Buffer,
    /// The lists of a walk.
    pub addresses: Buffer<u64>,
    pub lengths: Buffer<u32>,
    /// Where the bytes of writes are taken from.
    data: Buffer,
}

impl Memory {
    pub fn new() -> Memory {
        Memory::sized(WINDOW, WINDOW)
    }

    /// With a window and a destination of any length.
    pub fn sized(window: usize, destination: usize) -> Memory {
        Memory {
            window: Buffer::patterned(0, window, 251),
            destination: Buffer::zeroed(4 * EIGHTH, destination),
            addresses: Buffer::zeroed(3 * EIGHTH, SPANS),
            lengths: Buffer::zeroed(5 * EIGHTH, SPANS),
            data: Buffer::patterned(6 * EIGHTH, 2 * LONGEST, 241),
        }
    }

    /// Makes lists of any number of places for walks.
    pub fn set_places(&mut self, addresses: usize, lengths: usize) {
        self.addresses = Buffer::zeroed(3 * EIGHTH, addresses);
        self.lengths = Buffer::zeroed(5 * EIGHTH, lengths);
    }

    /// The window, and the bytes for a write at an address.
    pub fn write(&mut self, address: usize, length: usize) -> (&mut [u8], &[u8]) {
        let from = address % LONGEST;
        (&mut self.window, &self.data[from..][..length])
    }

    /// The window, and the lists of a walk.
    pub fn walk(&mut self) -> (&[u8], Lists<'_>) {
        let lists = Lists {
            addresses: &mut self.addresses,
            lengths: &mut self.lengths,
        };
        (&self.window, lists)
    }

    /// One copy of so many bytes.
    pub fn copy(&mut self, length: usize) {
        self.destination[..length].copy_from_slice(&self.window[..length]);
    }
}

/// What a journal gets beside that.
#[derive(PartialEq)]
pub struct Desk {
    memory: Memory,
    store: Buffer,
    output: Buffer,
    room: usize,
}

impl Desk {
    /// The output is a buffer in any case; of it nothing is lent if nothing is
    /// logged.
    pub fn new(logged: bool) -> Desk {
        Desk {
            memory: Memory::new(),
            store: store(),
            output: Buffer::zeroed(6 * EIGHTH, OUTPUT),
            room: if logged { OUTPUT } else { 0 },
        }
    }

    /// The buffers in the order in which a journal takes them.
    pub fn lend(&mut self) -> [&mut [u8]; 4] {
        [
            &mut self.store,
            &mut self.memory.window,
            &mut self.memory.destination,
            &mut self.output[..self.room],
        ]
    }

    /// So much of the log.
    pub fn log(&self, written: usize) -> &[u8] {
        &self.output[..written]
    }
}
