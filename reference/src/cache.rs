//! The six calls ("The calls" in 01, the agreed scope; docs/RULES.md has its
//! rules). Numbers may have any value; a refused call changes nothing that was
//! lent to it.

use std::ops::Range;

use crate::book::{Book, CommandBook, Span};
use crate::held::Held;
use crate::limits::{
    BYTES_PER_CALL, COMMANDS, HELD_PER_COMMAND, RECORDS_PER_COMMAND, STORE_BYTES, WINDOW_BYTES,
};
use crate::refusal::{refuse_lowest, Refusal};

/// The three counts of an accepted fetch.
#[derive(Clone, Copy, Debug, PartialEq, Eq)]
pub struct Fetched {
    /// Addresses of the span that were in no record before.
    pub fresh: u64,
    /// All other addresses of the span.
    pub replayed: u64,
    /// Records that the search for the span looked at.
    pub looked: u64,
}

/// The two numbers of an accepted own write.
#[derive(Clone, Copy, Debug, PartialEq, Eq)]
pub struct Written {
    /// How many bytes were written.
    pub bytes: u64,
    /// Addresses of the span that were in no record before.
    pub fresh: u64,
}

/// What a command had when it was ended.
#[derive(Clone, Copy, Debug, PartialEq, Eq)]
pub struct Ended {
    pub records: u64,
    /// Distinct held bytes.
    pub bytes: u64,
}

/// The rule "Begin": opens a closed command without records and sets its
/// store part to zero.
pub fn begin(book: &mut Book, store: &mut [u8], command: u64) -> Result<(), Refusal> {
    refuse_lowest([
        (no_such_command(command), Refusal::NoSuchCommand),
        (store.len() != STORE_BYTES, Refusal::StoreLength),
        (!book.holds_together(), Refusal::BrokenBook),
        (book.is_open(command), Refusal::AlreadyOpen),
    ])?;
    book.commands[command as usize] = CommandBook::open_with(&[]);
    store[part_of(command)].fill(0);
    Ok(())
}

/// The rule "Fetch": delivers a span to the front of the destination, held
/// bytes from the store, the others from the window; these are held from then
/// on.
pub fn fetch(
    book: &mut Book,
    store: &mut [u8],
    window: &[u8],
    command: u64,
    address: u64,
    length: u64,
    destination: &mut [u8],
) -> Result<Fetched, Refusal> {
    let span = Span {
        start: address,
        length,
    };
    refuse_lowest([
        (length > BYTES_PER_CALL as u64, Refusal::LengthTooLong),
        (no_such_command(command), Refusal::NoSuchCommand),
        (window.len() > WINDOW_BYTES, Refusal::WindowTooLong),
        (store.len() != STORE_BYTES, Refusal::StoreLength),
        (span.end() > window.len() as u128, Refusal::PastWindow),
        ((destination.len() as u64) < length, Refusal::OutputTooShort),
        (!book.holds_together(), Refusal::BrokenBook),
        (!book.is_open(command), Refusal::NotOpen),
    ])?;

    let entry = &mut book.commands[command as usize];
    let part = &mut store[part_of(command)];
    let mut held = Held::unpack(entry, part);
    let fresh = held.take_in(span, window);
    refuse_beyond_limits(&held)?;

    let looked = looked_at(entry.records(), span);
    held.pack(entry, part);
    for (place, byte) in destination.iter_mut().zip(held.bytes_of(span)) {
        *place = byte;
    }
    Ok(Fetched {
        fresh,
        replayed: length - fresh,
        looked,
    })
}

/// How many of the ascending records a search for the span looks at, by F-6 of 02
/// (the agreed changes; docs/RULES.md has them too): the first one that starts
/// above the span's end is the last, and there is no search for no bytes.
fn looked_at(records: &[Span], span: Span) -> u64 {
    if span.length == 0 {
        return 0;
    }
    let mut parts = records.split_inclusive(|record| span.ends_short_of(*record));
    parts.next().map_or(0, |searched| searched.len() as u64)
}

/// The rule "End": closes an open command, whose records go, and sets its
/// store part to zero.
pub fn end(book: &mut Book, store: &mut [u8], command: u64) -> Result<Ended, Refusal> {
    refuse_lowest([
        (no_such_command(command), Refusal::NoSuchCommand),
        (store.len() != STORE_BYTES, Refusal::StoreLength),
        (!book.holds_together(), Refusal::BrokenBook),
        (!book.is_open(command), Refusal::NotOpen),
    ])?;
    let entry = &mut book.commands[command as usize];
    let part = &mut store[part_of(command)];
    let held = Held::unpack(entry, part);
    *entry = CommandBook::CLOSED;
    part.fill(0);
    Ok(Ended {
        records: held.runs().len() as u64,
        bytes: held.bytes.len() as u64,
    })
}

/// The rule "Host write": copies bytes into the window and answers how many.
pub fn host_write(window: &mut [u8], address: u64, data: &[u8]) -> Result<u64, Refusal> {
    let span = Span {
        start: address,
        length: data.len() as u64,
    };
    refuse_lowest([
        (data.len() > BYTES_PER_CALL, Refusal::LengthTooLong),
        (window.len() > WINDOW_BYTES, Refusal::WindowTooLong),
        (span.end() > window.len() as u128, Refusal::PastWindow),
    ])?;
    copy_into(window, address, data);
    Ok(span.length)
}

/// The rule "Own write" as F-3 of 02 (the agreed changes; docs/RULES.md has them
/// too) has it: the same for an open command, which from then on holds the
/// written bytes, also where it held others. Answers how many bytes were written
/// and how many of their addresses were not held.
pub fn own_write(
    book: &mut Book,
    store: &mut [u8],
    window: &mut [u8],
    command: u64,
    address: u64,
    data: &[u8],
) -> Result<Written, Refusal> {
    let span = Span {
        start: address,
        length: data.len() as u64,
    };
    refuse_lowest([
        (data.len() > BYTES_PER_CALL, Refusal::LengthTooLong),
        (no_such_command(command), Refusal::NoSuchCommand),
        (window.len() > WINDOW_BYTES, Refusal::WindowTooLong),
        (store.len() != STORE_BYTES, Refusal::StoreLength),
        (span.end() > window.len() as u128, Refusal::PastWindow),
        (!book.holds_together(), Refusal::BrokenBook),
        (!book.is_open(command), Refusal::NotOpen),
    ])?;

    let entry = &mut book.commands[command as usize];
    let part = &mut store[part_of(command)];
    let mut held = Held::unpack(entry, part);
    let fresh = held.take_over(span, data);
    refuse_beyond_limits(&held)?;

    held.pack(entry, part);
    copy_into(window, address, data);
    Ok(Written {
        bytes: span.length,
        fresh,
    })
}

/// The rule "Show": gives the record of that index, counted from 0, of an open
/// command.
pub fn show(book: &Book, command: u64, index: u64) -> Result<Span, Refusal> {
    let count = book.command(command).map_or(0, |entry| entry.count);
    refuse_lowest([
        (no_such_command(command), Refusal::NoSuchCommand),
        (!book.holds_together(), Refusal::BrokenBook),
        (!book.is_open(command), Refusal::NotOpen),
        (index >= count, Refusal::NoSuchRecord),
    ])?;
    Ok(book.commands[command as usize].entries[index as usize])
}

/// Refuses what a command would hold if that is more than it may.
fn refuse_beyond_limits(held: &Held) -> Result<(), Refusal> {
    let records = held.runs().len();
    refuse_lowest([
        (held.bytes.len() > HELD_PER_COMMAND, Refusal::TooManyBytes),
        (records > RECORDS_PER_COMMAND, Refusal::TooManyRecords),
    ])
}

/// Whether the number is above that of the last command.
pub(crate) fn no_such_command(command: u64) -> bool {
    command >= COMMANDS as u64
}

/// The places of the store that belong to an existing command ("The book and
/// the store").
fn part_of(command: u64) -> Range<usize> {
    let start = HELD_PER_COMMAND * command as usize;
    start..start + HELD_PER_COMMAND
}

/// Puts data into a window that has room for them at the address.
fn copy_into(window: &mut [u8], address: u64, data: &[u8]) {
    window[address as usize..][..data.len()].copy_from_slice(data);
}
