//! What is lent to a run, chosen by a seed: any bytes in every buffer, and
//! lengths that are mostly the usual ones.

use compare::draft::WINDOW;
use reference::limits::{BYTES_PER_CALL, STORE_BYTES, WINDOW_BYTES};
use sampling::generator::Generator;

/// The buffers of a run, before it or after it.
#[derive(Clone, PartialEq, Eq)]
pub struct Buffers {
    pub store: Vec<u8>,
    pub window: Vec<u8>,
    pub destination: Vec<u8>,
    pub output: Vec<u8>,
}

/// How an output's length stands to the log's.
#[derive(Clone, Copy, PartialEq, Eq, PartialOrd, Ord, Debug)]
pub enum Room {
    /// No byte at all.
    None,
    /// Fewer bytes than the log has.
    Short,
    /// One byte fewer.
    OneShort,
    /// As many bytes as the log has.
    Exact,
    /// More bytes than the log has.
    Ample,
}

/// Every way in which an output can have room.
pub const ROOMS: [Room; 5] = [
    Room::None,
    Room::Short,
    Room::OneShort,
    Room::Exact,
    Room::Ample,
];

/// Chooses the buffers, all but the output, whose length hangs on the log.
pub fn without_output(numbers: &mut Generator) -> Buffers {
    let store = store_length(numbers);
    let window = window_length(numbers);
    let destination = destination_length(numbers);
    Buffers {
        store: numbers.bytes(store),
        window: numbers.bytes(window),
        destination: numbers.bytes(destination),
        output: vec![],
    }
}

/// The buffers of the log program: a store and a window of zeroes.
pub fn of_the_log_program() -> Buffers {
    Buffers {
        store: vec![0; STORE_BYTES],
        window: vec![0; WINDOW as usize],
        destination: vec![0; BYTES_PER_CALL],
        output: vec![],
    }
}

/// An output of any bytes for a log of that length, and how it was chosen.
pub fn output(numbers: &mut Generator, log: usize) -> (Room, Vec<u8>) {
    let room = ROOMS[numbers.below(ROOMS.len() as u64) as usize];
    let length = match room {
        Room::None => 0,
        Room::Short => numbers.below(log as u64 + 1) as usize,
        Room::OneShort => log.saturating_sub(1),
        Room::Exact => log,
        Room::Ample => log + numbers.between(1, 300) as usize,
    };
    (room, numbers.bytes(length))
}

/// The one right length, and now and then another.
fn store_length(numbers: &mut Generator) -> usize {
    match numbers.below(20) {
        0 => 0,
        1 => STORE_BYTES - 1,
        2 => STORE_BYTES + 1,
        _ => STORE_BYTES,
    }
}

/// Mostly the length that the journals are made for.
fn window_length(numbers: &mut Generator) -> usize {
    match numbers.below(12) {
        0 => 0,
        1 => WINDOW_BYTES,
        2 => WINDOW_BYTES + 1,
        3 => numbers.below(WINDOW_BYTES as u64) as usize,
        _ => WINDOW as usize,
    }
}

/// Room for every fetch, for some, for those of no bytes, or for more.
fn destination_length(numbers: &mut Generator) -> usize {
    match numbers.below(8) {
        0 => 0,
        1 => numbers.below(64) as usize,
        2 => numbers.below(BYTES_PER_CALL as u64) as usize,
        3 => BYTES_PER_CALL + numbers.below(100) as usize,
        _ => BYTES_PER_CALL,
    }
}
