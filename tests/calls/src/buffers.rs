//! The buffers of which calls are lent the front.

use std::fmt::Display;

use reference::limits::{STORE_BYTES, WALK_SCRATCH_BYTES, WALK_SPANS, WINDOW_BYTES};

use crate::call::made_bytes;

/// Which buffer.
#[derive(Clone, Copy, Debug, PartialEq, Eq)]
pub enum Name {
    Store,
    Window,
    Destination,
    Output,
    Scratch,
    Addresses,
    Lengths,
}

/// All of them.
pub const NAMES: [Name; 7] = [
    Name::Store,
    Name::Window,
    Name::Destination,
    Name::Output,
    Name::Scratch,
    Name::Addresses,
    Name::Lengths,
];

impl Name {
    /// The buffer as lines have it.
    pub fn word(self) -> &'static str {
        match self {
            Name::Store => "store",
            Name::Window => "window",
            Name::Destination => "destination",
            Name::Output => "output",
            Name::Scratch => "scratch",
            Name::Addresses => "addresses",
            Name::Lengths => "lengths",
        }
    }

    /// How many places there are to lend.
    pub fn size(self) -> usize {
        match self {
            Name::Store => 2 * STORE_BYTES,
            Name::Window => 2 * WINDOW_BYTES + 1,
            Name::Destination | Name::Output => 10_000,
            Name::Scratch => 300,
            Name::Addresses | Name::Lengths => 40,
        }
    }

    /// How many of them are lent if no line says otherwise.
    pub fn usual(self) -> usize {
        match self {
            Name::Store => STORE_BYTES,
            Name::Window => WINDOW_BYTES,
            Name::Destination | Name::Output => 4_200,
            Name::Scratch => WALK_SCRATCH_BYTES,
            Name::Addresses | Name::Lengths => WALK_SPANS,
        }
    }
}

/// What a place of a buffer has: a byte, or a number of a walk's list.
pub trait Place: Copy + PartialEq + Display {
    /// So many that depend on the seed alone.
    fn made(seed: u64, count: usize) -> Vec<Self>;
}

impl Place for u8 {
    fn made(seed: u64, count: usize) -> Vec<u8> {
        made_bytes(seed, count)
    }
}

impl Place for u32 {
    fn made(seed: u64, count: usize) -> Vec<u32> {
        made_numbers(seed, count, u32::from_le_bytes)
    }
}

impl Place for u64 {
    fn made(seed: u64, count: usize) -> Vec<u64> {
        made_numbers(seed, count, u64::from_le_bytes)
    }
}

/// Numbers of made bytes.
fn made_numbers<T, const SIZE: usize>(
    seed: u64,
    count: usize,
    number: fn([u8; SIZE]) -> T,
) -> Vec<T> {
    let bytes = made_bytes(seed, SIZE * count);
    let places = bytes.chunks_exact(SIZE);
    places
        .map(|place| number(place.try_into().expect("as many bytes as a number has")))
        .collect()
}

/// A buffer, and how many of its places are lent.
#[derive(Clone)]
pub struct Buffer<T> {
    pub places: Vec<T>,
    pub length: usize,
}

impl<T: Place> Buffer<T> {
    fn usual(name: Name) -> Buffer<T> {
        Buffer {
            places: T::made(name as u64, name.size()),
            length: name.usual(),
        }
    }

    /// What a call may read and write.
    pub fn lent(&mut self) -> &mut [T] {
        &mut self.places[..self.length]
    }
}

/// What a line does with a buffer, whatever its places have.
pub trait Lend {
    /// Lends so many places from now on.
    fn lend(&mut self, length: usize);

    /// Gives all places what is made from a seed.
    fn fill(&mut self, seed: u64);
}

impl<T: Place> Lend for Buffer<T> {
    fn lend(&mut self, length: usize) {
        self.length = length;
    }

    fn fill(&mut self, seed: u64) {
        self.places = T::made(seed, self.places.len());
    }
}

/// All that is lent to calls, the state and what they only read left out.
#[derive(Clone)]
pub struct Buffers {
    pub store: Buffer<u8>,
    pub window: Buffer<u8>,
    pub destination: Buffer<u8>,
    pub output: Buffer<u8>,
    pub scratch: Buffer<u8>,
    pub addresses: Buffer<u64>,
    pub lengths: Buffer<u32>,
}

impl Buffers {
    /// The content and the lengths that every part starts with.
    pub fn usual() -> Buffers {
        Buffers {
            store: Buffer::usual(Name::Store),
            window: Buffer::usual(Name::Window),
            destination: Buffer::usual(Name::Destination),
            output: Buffer::usual(Name::Output),
            scratch: Buffer::usual(Name::Scratch),
            addresses: Buffer::usual(Name::Addresses),
            lengths: Buffer::usual(Name::Lengths),
        }
    }

    pub fn get_mut(&mut self, name: Name) -> &mut dyn Lend {
        match name {
            Name::Store => &mut self.store,
            Name::Window => &mut self.window,
            Name::Destination => &mut self.destination,
            Name::Output => &mut self.output,
            Name::Scratch => &mut self.scratch,
            Name::Addresses => &mut self.addresses,
            Name::Lengths => &mut self.lengths,
        }
    }

    /// Puts page entries into the window from an address on, the least byte of
    /// each first.
    pub fn put_entries(&mut self, address: usize, values: &[u64]) {
        let places = self.window.places[address..].chunks_exact_mut(8);
        for (place, value) in places.zip(values) {
            place.copy_from_slice(&value.to_le_bytes());
        }
    }
}
