//! The walk over page entries (F-5 in 02, the agreed changes; docs/RULES.md has
//! them too). It tells where a transfer lies, a span for each page.
//!
//! Page borders cut the transfer into lengths. As many addresses are then looked
//! for: PRP1, and behind it PRP2 or what a list in the window says, a page of the
//! list after the other.

use crate::book::Book;
use crate::cache::{fetch, no_such_command};
use crate::limits::{
    ENTRY_BYTES, PAGE_BYTES, STORE_BYTES, WALK_SCRATCH_BYTES, WALK_SPANS, WALK_TRANSFER_BYTES,
    WINDOW_BYTES,
};
use crate::refusal::{refuse_first, Refusal};

/// What PRP1 has to be a multiple of.
const FIRST_MULTIPLE: u64 = 4;

/// How a command describes the bytes that are to be moved for it.
#[derive(Clone, Copy, Debug, PartialEq, Eq)]
pub struct Transfer {
    /// Where the first byte is.
    pub prp1: u64,
    /// The second page, or a list of the pages behind the first.
    pub prp2: u64,
    /// How many bytes there are.
    pub length: u64,
}

/// What is lent to a walk beside book, store and window.
pub struct Lent<'a> {
    pub scratch: &'a mut [u8],
    pub addresses: &'a mut [u64],
    pub lengths: &'a mut [u32],
}

/// The two numbers of an accepted walk.
#[derive(Clone, Copy, Debug, PartialEq, Eq)]
pub struct Walked {
    /// How many spans the transfer has.
    pub spans: u64,
    /// Records that were looked at in all fetches of lists (F-6 in 02).
    pub looked: u64,
}

/// Puts address and length of each span at the front of the lists. A list fetch
/// that was accepted stays, though the walk is refused later.
pub fn walk(
    book: &mut Book,
    store: &mut [u8],
    window: &[u8],
    command: u64,
    transfer: Transfer,
    lent: Lent,
) -> Result<Walked, Refusal> {
    let possible = 1..=WALK_TRANSFER_BYTES as u64;
    let places = lent.addresses.len().min(lent.lengths.len());
    let too_short = lent.scratch.len() < WALK_SCRATCH_BYTES || places < WALK_SPANS;
    refuse_first([
        (
            !possible.contains(&transfer.length),
            Refusal::TransferOutOfRange,
        ),
        (too_short, Refusal::OutputTooShort),
        (no_such_command(command), Refusal::NoSuchCommand),
        (window.len() > WINDOW_BYTES, Refusal::WindowTooLong),
        (store.len() != STORE_BYTES, Refusal::StoreLength),
        (!book.holds_together(), Refusal::BrokenBook),
        (!book.is_open(command), Refusal::NotOpen),
    ])?;

    lent.scratch.fill(0);
    let lengths = cut_at_borders(transfer);
    let mut list = ListPages {
        book,
        store,
        window,
        command,
        next: transfer.prp2,
        missing: lengths.len() - 1,
        looked: 0,
    };
    let addresses = addresses(transfer, &mut list)?;
    for (place, (address, length)) in addresses.iter().zip(&lengths).enumerate() {
        lent.addresses[place] = *address;
        lent.lengths[place] = *length;
    }
    Ok(Walked {
        spans: lengths.len() as u64,
        looked: list.looked,
    })
}

/// How many bytes of the transfer lie in each page, from the first on.
fn cut_at_borders(transfer: Transfer) -> Vec<u32> {
    let mut lengths = vec![];
    let mut room = to_the_border(transfer.prp1);
    let mut left = transfer.length;
    while left > 0 {
        let here = left.min(room);
        lengths.push(here as u32);
        left -= here;
        room = PAGE_BYTES as u64;
    }
    lengths
}

/// How many bytes there are from an address to the end of its page.
fn to_the_border(address: u64) -> u64 {
    PAGE_BYTES as u64 - address % PAGE_BYTES as u64
}

/// The address of each span. The list has those behind the first, if they are
/// more than one.
fn addresses(transfer: Transfer, list: &mut ListPages) -> Result<Vec<u64>, Refusal> {
    let mut addresses = vec![multiple_of(FIRST_MULTIPLE, transfer.prp1)?];
    match list.missing {
        0 => {}
        1 => addresses.push(multiple_of(PAGE_BYTES as u64, transfer.prp2)?),
        _ => {
            multiple_of(ENTRY_BYTES as u64, transfer.prp2)?;
            for entries in list {
                addresses.extend(entries?);
            }
        }
    }
    Ok(addresses)
}

/// The number itself, unless it is no multiple.
fn multiple_of(size: u64, number: u64) -> Result<u64, Refusal> {
    refuse_first([(number % size != 0, Refusal::EntryMisaligned)])?;
    Ok(number)
}

/// A list that is read page by page, and what it is read with.
struct ListPages<'a> {
    book: &'a mut Book,
    store: &'a mut [u8],
    window: &'a [u8],
    command: u64,
    /// Where the entries of the next page begin.
    next: u64,
    /// How many addresses are still to be found.
    missing: usize,
    /// How many records the fetches have looked at so far.
    looked: u64,
}

impl Iterator for ListPages<'_> {
    type Item = Result<Vec<u64>, Refusal>;

    /// The addresses in the next page of the list, while some are missing. It is
    /// not asked for more after a refusal.
    fn next(&mut self) -> Option<Self::Item> {
        (self.missing > 0).then(|| self.page())
    }
}

impl ListPages<'_> {
    /// Reads the entries that are needed in this page. Where not all fit, the
    /// last one there tells where the list goes on.
    fn page(&mut self) -> Result<Vec<u64>, Refusal> {
        let places = to_the_border(self.next) as usize / ENTRY_BYTES;
        let mut entries = self.fetched(self.missing.min(places))?;
        if self.missing > places {
            self.next = entries.pop().expect("a page has a place for an entry");
        }
        self.missing -= entries.len();
        Ok(entries)
    }

    /// So many entries, in one fetch, each judged.
    fn fetched(&mut self, count: usize) -> Result<Vec<u64>, Refusal> {
        let mut bytes = vec![0; ENTRY_BYTES * count];
        let counts = fetch(
            self.book,
            self.store,
            self.window,
            self.command,
            self.next,
            bytes.len() as u64,
            &mut bytes,
        )?;
        self.looked += counts.looked;
        bytes
            .chunks_exact(ENTRY_BYTES)
            .map(|entry| multiple_of(PAGE_BYTES as u64, number_of(entry)))
            .collect()
    }
}

/// The number that the bytes of an entry stand for, the least one first.
fn number_of(entry: &[u8]) -> u64 {
    let from_the_greatest = entry.iter().rev();
    from_the_greatest.fold(0, |number, byte| number << 8 | u64::from(*byte))
}
