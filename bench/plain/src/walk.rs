//! A walk over page entries: the spans of a transfer, one for each page that it
//! touches. Whoever walks says how the entries of a list are read.

use crate::calls::{outside, refuse};

/// The bytes of a page.
pub const PAGE: usize = 4_096;

/// The most bytes of a transfer, and so the most spans.
pub const LONGEST: usize = 65_536;
pub const SPANS: usize = LONGEST / PAGE + 1;

/// The least scratch of a walk through a cache.
pub const SCRATCH: usize = 128;

/// The bytes of an entry, and the most entries behind the first.
pub const ENTRY: usize = 8;
pub const ENTRIES: usize = SPANS - 1;

/// A transfer, with the two entries of its command.
#[derive(Clone, Copy, Debug)]
pub struct Transfer {
    pub prp1: u64,
    pub prp2: u64,
    pub length: usize,
}

/// Refuses an entry that is no multiple.
fn aligned(entry: u64, multiple: usize) -> Result<(), u8> {
    refuse(32, entry % multiple as u64 != 0)
}

/// Takes entries from the bytes of a list, each of which must be a multiple of a
/// page. There is no branch at each, so that it is vector code.
pub fn take(bytes: &[u8], entries: &mut [u64]) -> Result<(), u8> {
    let mut bits = 0;
    for (bytes, entry) in bytes.chunks_exact(ENTRY).zip(entries) {
        *entry = u64::from_le_bytes(bytes.try_into().expect("an entry has 8 bytes"));
        bits |= *entry;
    }
    aligned(bits, PAGE)
}

impl Transfer {
    pub(crate) fn check(&self) -> Result<(), u8> {
        refuse(31, self.length == 0 || self.length > LONGEST)
    }

    /// Where it starts in its first page.
    fn offset(&self) -> usize {
        self.prp1 as usize % PAGE
    }

    /// How many pages it touches.
    pub(crate) fn pages(&self) -> usize {
        (self.offset() + self.length).div_ceil(PAGE)
    }

    /// Judges the entries, and gives those of all pages behind the first. They are
    /// read by their address. The last that is read in one page of a list leads to
    /// the next, if it does not hold all of them.
    pub(crate) fn follow(
        &self,
        behind: &mut [u64],
        mut read: impl FnMut(usize, &mut [u64]) -> Result<(), u8>,
    ) -> Result<(), u8> {
        aligned(self.prp1, 4)?;
        match behind {
            [] => Ok(()),
            [second] => {
                *second = self.prp2;
                aligned(self.prp2, PAGE)
            }
            _ => {
                aligned(self.prp2, ENTRY)?;
                let list = self.prp2 as usize;
                let fit = (PAGE - list % PAGE) / ENTRY;
                if behind.len() <= fit {
                    return read(list, behind);
                }
                read(list, &mut behind[..fit])?;
                let next = behind[fit - 1] as usize;
                read(next, &mut behind[fit - 1..])
            }
        }
    }
}

/// Where the spans go.
pub struct Lists<'a> {
    pub addresses: &'a mut [u64],
    pub lengths: &'a mut [u32],
}

impl Lists<'_> {
    pub(crate) fn are_short(&self) -> bool {
        self.addresses.len() < SPANS || self.lengths.len() < SPANS
    }

    /// Puts all but the addresses behind the first, and answers how many spans
    /// there are.
    pub(crate) fn put(self, transfer: &Transfer) -> usize {
        let pages = transfer.pages();
        let (start, end) = (transfer.offset(), transfer.offset() + transfer.length);
        self.addresses[0] = transfer.prp1;
        let lengths = &mut self.lengths[..pages];
        lengths.fill(PAGE as u32);
        lengths[0] -= start as u32;
        lengths[pages - 1] -= (pages * PAGE - end) as u32;
        pages
    }
}

/// A walk that puts each address where it belongs once it is read. If it is
/// refused, what is in the lists means nothing.
pub fn walk_by(
    lists: Lists,
    transfer: &Transfer,
    read: impl FnMut(usize, &mut [u64]) -> Result<(), u8>,
) -> Result<usize, u8> {
    transfer.check()?;
    refuse(10, lists.are_short())?;
    let behind = &mut lists.addresses[1..transfer.pages()];
    transfer.follow(behind, read)?;
    Ok(lists.put(transfer))
}

/// A walk without any cache: the entries are read from the window, and are what
/// the host has put there by then.
#[inline(never)]
pub fn walk(window: &[u8], lists: Lists, transfer: &Transfer) -> Result<usize, u8> {
    walk_by(lists, transfer, |address, entries| {
        let length = ENTRY * entries.len();
        refuse(9, outside(window, address, length))?;
        take(&window[address..][..length], entries)
    })
}
