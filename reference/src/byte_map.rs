//! The byte map (F-2 and F-3 in 02, the agreed changes; docs/RULES.md has them
//! too): an engine of one command. Each address has a bit, which says whether it
//! is held, and a value.
//!
//! A call takes the map apart into cells, each with its byte or with none, does
//! its work on them, and puts the map together again.

use crate::book::Span;
use crate::cache::{Ended, Written};
use crate::limits::{BYTES_PER_CALL, MAP_ADDRESSES, MAP_WORDS, RECORDS_PER_COMMAND};
use crate::refusal::{refuse_first, Refusal};

/// A map as it is lent to a call. It may have any content.
#[derive(Clone, Debug, PartialEq, Eq)]
pub struct ByteMap {
    /// 0 if the command is closed, and anything else if it is open.
    pub open: u64,
    /// The bit of an address is set if the address is held. Word 0 has those of
    /// the first 64 addresses, from its lowest bit on.
    pub words: [u64; MAP_WORDS],
    /// The held values, each at its address.
    pub values: [u8; MAP_ADDRESSES],
}

/// The two counts of an accepted fetch. There are no records to look at.
#[derive(Clone, Copy, Debug, PartialEq, Eq)]
pub struct Fetched {
    /// Addresses of the span that were not held before.
    pub fresh: u64,
    /// All other addresses of the span.
    pub replayed: u64,
}

/// What each address holds.
type Cells = Vec<Option<u8>>;

impl ByteMap {
    /// A closed map.
    pub const FRESH: ByteMap = ByteMap {
        open: 0,
        words: [0; MAP_WORDS],
        values: [0; MAP_ADDRESSES],
    };

    /// An open map that holds nothing.
    const BEGUN: ByteMap = ByteMap {
        open: 1,
        ..ByteMap::FRESH
    };

    fn is_closed(&self) -> bool {
        self.open == 0
    }

    fn cells(&self) -> Cells {
        let bits = self.words.iter().flat_map(|word| bits_of(*word));
        let both = bits.zip(self.values);
        both.map(|(held, value)| held.then_some(value)).collect()
    }

    /// Sets bit and value of each address; one that is not held has the value 0.
    fn put(&mut self, cells: &[Option<u8>]) {
        self.words = [0; MAP_WORDS];
        for (address, cell) in cells.iter().enumerate() {
            self.words[address / 64] |= u64::from(cell.is_some()) << (address % 64);
            self.values[address] = cell.unwrap_or(0);
        }
    }

    /// The same, unless there would be more than 64 runs.
    fn put_or_refuse(&mut self, cells: &[Option<u8>]) -> Result<(), Refusal> {
        let too_many = runs_of(cells).len() > RECORDS_PER_COMMAND;
        refuse_first([(too_many, Refusal::TooManyRecords)])?;
        self.put(cells);
        Ok(())
    }

    /// Whether the map keeps the three rules of F-2: a closed one has no bit set,
    /// an address that is not held has the value 0, and there are at most 64
    /// runs.
    pub fn holds_together(&self) -> bool {
        let cells = self.cells();
        let mut pairs = cells.iter().zip(self.values);
        let idle_are_zero = pairs.all(|(cell, value)| cell.is_some() || value == 0);
        let nothing_held = cells.iter().all(Option::is_none);
        (!self.is_closed() || nothing_held)
            && idle_are_zero
            && runs_of(&cells).len() <= RECORDS_PER_COMMAND
    }

    /// The longest unbroken runs of held addresses, ascending.
    pub fn runs(&self) -> Vec<Span> {
        runs_of(&self.cells())
    }

    /// How many addresses are held: all ones of the words, added up.
    pub fn held(&self) -> u64 {
        self.words
            .iter()
            .map(|word| u64::from(word.count_ones()))
            .sum()
    }
}

/// The bits of a word from the lowest on.
fn bits_of(word: u64) -> impl Iterator<Item = bool> {
    (0..64).map(move |place| word >> place & 1 == 1)
}

/// The runs of cells that hold something: what stands between those that do not.
fn runs_of(cells: &[Option<u8>]) -> Vec<Span> {
    let mut runs = vec![];
    let mut start = 0;
    for run in cells.split(Option::is_none) {
        let length = run.len() as u64;
        if length > 0 {
            runs.push(Span { start, length });
        }
        start += length + 1;
    }
    runs
}

/// Opens a closed map, which is cleared.
pub fn begin(map: &mut ByteMap) -> Result<(), Refusal> {
    refuse_first([
        (!map.holds_together(), Refusal::BrokenBook),
        (!map.is_closed(), Refusal::AlreadyOpen),
    ])?;
    *map = ByteMap::BEGUN;
    Ok(())
}

/// Delivers a span to the front of the destination: held values, and for the
/// other addresses what the window has, which is held from then on.
pub fn fetch(
    map: &mut ByteMap,
    window: &[u8],
    address: u64,
    length: u64,
    destination: &mut [u8],
) -> Result<Fetched, Refusal> {
    let end = u128::from(address) + u128::from(length);
    refuse_first([
        (length > BYTES_PER_CALL as u64, Refusal::LengthTooLong),
        (window.len() > MAP_ADDRESSES, Refusal::WindowBeyondMap),
        (end > window.len() as u128, Refusal::PastWindow),
        ((destination.len() as u64) < length, Refusal::OutputTooShort),
        (!map.holds_together(), Refusal::BrokenBook),
        (map.is_closed(), Refusal::NotOpen),
    ])?;

    let span = address as usize..end as usize;
    let mut cells = map.cells();
    let fresh = take_in(&mut cells[span.clone()], &window[span.clone()]);
    map.put_or_refuse(&cells)?;
    let delivered = cells[span].iter().flatten();
    for (place, value) in destination.iter_mut().zip(delivered) {
        *place = *value;
    }
    Ok(Fetched {
        fresh,
        replayed: length - fresh,
    })
}

/// Fills the cells that hold nothing with what the window has there, and answers
/// how many those were.
fn take_in(cells: &mut [Option<u8>], window: &[u8]) -> u64 {
    let mut fresh = 0;
    for (cell, byte) in cells.iter_mut().zip(window) {
        if cell.is_none() {
            *cell = Some(*byte);
            fresh += 1;
        }
    }
    fresh
}

/// Writes bytes into the window and holds them, also where others are held.
/// Answers how many they are and how many of their addresses were not held.
pub fn own_write(
    map: &mut ByteMap,
    window: &mut [u8],
    address: u64,
    data: &[u8],
) -> Result<Written, Refusal> {
    let end = u128::from(address) + data.len() as u128;
    refuse_first([
        (data.len() > BYTES_PER_CALL, Refusal::LengthTooLong),
        (window.len() > MAP_ADDRESSES, Refusal::WindowBeyondMap),
        (end > window.len() as u128, Refusal::PastWindow),
        (!map.holds_together(), Refusal::BrokenBook),
        (map.is_closed(), Refusal::NotOpen),
    ])?;

    let span = address as usize..end as usize;
    let mut cells = map.cells();
    let fresh = take_over(&mut cells[span.clone()], data);
    map.put_or_refuse(&cells)?;
    window[span].copy_from_slice(data);
    Ok(Written {
        bytes: data.len() as u64,
        fresh,
    })
}

/// Fills the cells with the data, and answers how many held nothing.
fn take_over(cells: &mut [Option<u8>], data: &[u8]) -> u64 {
    let mut fresh = 0;
    for (cell, byte) in cells.iter_mut().zip(data) {
        let before = cell.replace(*byte);
        fresh += u64::from(before.is_none());
    }
    fresh
}

/// Closes an open map, which is cleared, and answers its runs and held bytes.
pub fn end(map: &mut ByteMap) -> Result<Ended, Refusal> {
    refuse_first([
        (!map.holds_together(), Refusal::BrokenBook),
        (map.is_closed(), Refusal::NotOpen),
    ])?;
    let ended = Ended {
        records: map.runs().len() as u64,
        bytes: map.held(),
    };
    *map = ByteMap::FRESH;
    Ok(ended)
}
