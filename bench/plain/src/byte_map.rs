//! The byte map: one command, and for each of 4,096 addresses a bit and a value.
//! A refusal is its number, the first of the call's list that applies.
//!
//! A [`ByteMap`] that is `CHECKED` looks at the whole map at every call, as one
//! must that gets the map from somebody else. The other relies on owning it.

use crate::calls::{outside, refuse, Counts};
use crate::state::{RECORDS, TRANSFER};

pub const ADDRESSES: usize = 4_096;
pub const WORDS: usize = 64;
const BITS: usize = u64::BITS as usize;

/// The parts of the map, and whether it is checked at each call.
pub struct ByteMap<const CHECKED: bool> {
    pub open: u64,
    pub words: [u64; WORDS],
    pub values: [u8; ADDRESSES],
}

/// Every call stays a call, as a linked library's do, so that none is measured
/// as a part of what calls it.
impl<const CHECKED: bool> ByteMap<CHECKED> {
    pub const fn fresh() -> ByteMap<CHECKED> {
        ByteMap {
            open: 0,
            words: [0; WORDS],
            values: [0; ADDRESSES],
        }
    }

    /// Refuses a map that does not hold together; answers the number of runs if
    /// they have been counted for it.
    fn check(&self) -> Result<Option<usize>, u8> {
        if !CHECKED {
            return Ok(None);
        }
        let held = self.words.iter().fold(0, |bits, word| bits | word);
        let runs = runs(&self.words);
        let sound = (self.open != 0 || held == 0)
            && runs <= RECORDS
            && idle_values(&self.words, &self.values) == [0; 8];
        refuse(20, !sound)?;
        Ok(Some(runs))
    }

    fn clear(&mut self, open: u64) {
        self.open = open;
        self.words.fill(0);
        self.values.fill(0);
    }

    #[inline(never)]
    pub fn begin(&mut self) -> Result<(), u8> {
        self.check()?;
        refuse(22, self.open != 0)?;
        self.clear(1);
        Ok(())
    }

    /// Replies how many runs and held bytes there were.
    #[inline(never)]
    pub fn end(&mut self) -> Result<Counts, u8> {
        let runs = self.check()?;
        refuse(21, self.open == 0)?;
        let held: u32 = self.words.iter().map(|word| word.count_ones()).sum();
        let counts = (self.runs(runs), held as usize);
        self.clear(0);
        Ok(counts)
    }

    /// Replies the fresh and the replayed bytes.
    #[inline(never)]
    pub fn fetch(
        &mut self,
        window: &[u8],
        destination: &mut [u8],
        address: usize,
        length: usize,
    ) -> Result<Counts, u8> {
        refuse(4, length > TRANSFER)?;
        refuse(30, window.len() > ADDRESSES)?;
        refuse(9, outside(window, address, length))?;
        refuse(10, destination.len() < length)?;
        let runs = self.check()?;
        refuse(21, self.open == 0)?;
        if length == 0 {
            return Ok((0, 0));
        }
        let (from, to) = (address, address + length);
        let fresh = self.new_ones(from, to, runs)?;
        if fresh == length {
            self.values[from..to].copy_from_slice(&window[from..to]);
            self.set(from, to);
        } else if fresh > 0 {
            self.fill_gaps(window, from, to);
            self.set(from, to);
        }
        destination[..length].copy_from_slice(&self.values[from..to]);
        Ok((fresh, length - fresh))
    }

    /// Replies how many bytes were written and how many of them are new.
    #[inline(never)]
    pub fn own_write(
        &mut self,
        window: &mut [u8],
        address: usize,
        bytes: &[u8],
    ) -> Result<Counts, u8> {
        refuse(4, bytes.len() > TRANSFER)?;
        refuse(30, window.len() > ADDRESSES)?;
        refuse(9, outside(window, address, bytes.len()))?;
        let runs = self.check()?;
        refuse(21, self.open == 0)?;
        if bytes.is_empty() {
            return Ok((0, 0));
        }
        let (from, to) = (address, address + bytes.len());
        let new = self.new_ones(from, to, runs)?;
        if new > 0 {
            self.set(from, to);
        }
        self.values[from..to].copy_from_slice(bytes);
        window[from..to].copy_from_slice(bytes);
        Ok((bytes.len(), new))
    }

    /// The number of runs, if it has not been counted already.
    fn runs(&self, counted: Option<usize>) -> usize {
        counted.unwrap_or_else(|| runs(&self.words))
    }

    /// How many of one address or more are not held. The number of runs may be
    /// known; there is one more only where the span neither shares an address with
    /// a run nor touches one.
    fn new_ones(&self, from: usize, to: usize, runs: Option<usize>) -> Result<usize, u8> {
        let held: u32 = masks(from, to)
            .map(|(place, mask)| (self.words[place] & mask).count_ones())
            .sum();
        if held == 0 {
            let touches = self.is_held(to) || from > 0 && self.is_held(from - 1);
            refuse(24, !touches && self.runs(runs) >= RECORDS)?;
        }
        Ok(to - from - held as usize)
    }

    /// Sets the bits of one address or more.
    fn set(&mut self, from: usize, to: usize) {
        masks(from, to).for_each(|(place, mask)| self.words[place] |= mask);
    }

    /// Whether an address is held; the one behind the last is not.
    fn is_held(&self, address: usize) -> bool {
        let word = self.words.get(address / BITS);
        word.is_some_and(|word| word >> (address % BITS) & 1 == 1)
    }

    /// Takes the values of addresses that are not held from the window, gap by
    /// gap.
    fn fill_gaps(&mut self, window: &[u8], from: usize, to: usize) {
        for (place, mask) in masks(from, to) {
            let mut gaps = mask & !self.words[place];
            while gaps != 0 {
                let start = gaps.trailing_zeros();
                let length = (gaps >> start).trailing_ones() as usize;
                let gap = BITS * place + start as usize..;
                self.values[gap.clone()][..length].copy_from_slice(&window[gap][..length]);
                gaps &= gaps.wrapping_add(1 << start);
            }
        }
    }
}

/// The words that have an address from one up to another, and the bits of those
/// addresses in each. There is one address or more.
fn masks(from: usize, to: usize) -> impl Iterator<Item = (usize, u64)> {
    let (first, last) = (from / BITS, (to - 1) / BITS);
    let low = u64::MAX << (from % BITS);
    let high = u64::MAX >> (BITS - 1 - (to - 1) % BITS);
    (first..=last).map(move |place| {
        let low = if place == first { low } else { u64::MAX };
        let high = if place == last { high } else { u64::MAX };
        (place, low & high)
    })
}

/// How many runs of ones there are: ones behind a zero, or behind nothing.
fn runs(words: &[u64; WORDS]) -> usize {
    let (mut before, mut starts) = (0, 0);
    for word in words {
        starts += (word & !(word << 1 | before >> (BITS - 1))).count_ones();
        before = *word;
    }
    starts as usize
}

/// The values of all addresses whose bit is not set, one over the other, in eight
/// lanes. Mostly all bits of a word are alike; a wrong value is rare, so no branch
/// looks for it.
fn idle_values(words: &[u64; WORDS], values: &[u8; ADDRESSES]) -> [u64; 8] {
    let mut lanes = [0; 8];
    for (word, values) in words.iter().zip(values.chunks_exact(BITS)) {
        let eights = lanes.iter_mut().zip(values.chunks_exact(8));
        match word {
            0 => eights.for_each(|(lane, values)| *lane |= eight(values)),
            &u64::MAX => {}
            _ => {
                for ((lane, values), bits) in eights.zip(word.to_le_bytes()) {
                    *lane |= eight(values) & !spread(bits);
                }
            }
        }
    }
    lanes
}

/// Eight bytes as a word, the first one lowest.
fn eight(bytes: &[u8]) -> u64 {
    u64::from_le_bytes(bytes.try_into().expect("eight bytes"))
}

/// A byte of ones for each bit that is set, the lowest first.
fn spread(bits: u8) -> u64 {
    const ONES: u64 = 0x0101_0101_0101_0101;
    let each = (u64::from(bits) * ONES) & 0x8040_2010_0804_0201;
    let tops = (each + 0x7f * ONES) & (0x80 * ONES);
    (tops >> 7) * 0xff
}
