//! The calls. A refusal is its number, the lowest that applies, of a walk the
//! first that is found.
//!
//! A [`Cache`] that is `CHECKED` looks at its whole state at every call, as one
//! must that gets the state from somebody else. The other relies on owning it.

use crate::meeting::{looked_at, passed, Meeting};
use crate::state::{
    end, held, start, Command, Record, State, COMMANDS, HELD, RECORDS, STORE, TRANSFER, WINDOW,
};
use crate::walk::{take, Lists, Transfer, ENTRIES, ENTRY, SCRATCH};

/// Two numbers of a reply.
pub type Counts = (usize, usize);

/// The fresh and the replayed bytes of a fetch, and how many records its search
/// looked at.
pub struct Fetched {
    pub fresh: usize,
    pub replayed: usize,
    pub looked_at: usize,
}

/// The spans of a walk, and how many records all its list fetches looked at.
pub struct Walked {
    pub spans: usize,
    pub looked_at: usize,
}

/// A span that is held: where in the part it stands, how many of its bytes are new,
/// and how many records were looked at for it.
struct Span {
    place: usize,
    new: usize,
    looked_at: usize,
}

/// The state, and whether it is checked at each call.
pub struct Cache<const CHECKED: bool> {
    pub state: State,
}

/// The refusal, if it applies.
pub(crate) fn refuse(number: u8, applies: bool) -> Result<(), u8> {
    if applies {
        Err(number)
    } else {
        Ok(())
    }
}

/// The part of the store that belongs to a command.
fn part(store: &mut [u8], command: usize) -> &mut [u8] {
    &mut store[HELD * command..][..HELD]
}

/// Whether a span ends behind the window; no sum is formed that could be too
/// large.
pub(crate) fn outside(window: &[u8], address: usize, length: usize) -> bool {
    length > window.len() || address > window.len() - length
}

/// Puts bytes into the window.
pub fn host_write(window: &mut [u8], address: usize, bytes: &[u8]) -> Result<usize, u8> {
    refuse(4, bytes.len() > TRANSFER)?;
    refuse(7, window.len() > WINDOW)?;
    refuse(9, outside(window, address, bytes.len()))?;
    window[address..][..bytes.len()].copy_from_slice(bytes);
    Ok(bytes.len())
}

/// Every call stays a call, as a linked library's do, so that none is measured
/// as a part of what calls it.
impl<const CHECKED: bool> Cache<CHECKED> {
    pub const fn fresh() -> Cache<CHECKED> {
        Cache {
            state: State::fresh(),
        }
    }

    /// Refuses a state that does not hold together.
    fn check(&self) -> Result<(), u8> {
        refuse(20, CHECKED && !self.state.holds_together())
    }

    /// A command that is open.
    fn opened(&self, command: usize) -> Result<&Command, u8> {
        let entry = &self.state.commands[command];
        refuse(21, !entry.is_open())?;
        Ok(entry)
    }

    #[inline(never)]
    pub fn begin(&mut self, store: &mut [u8], command: usize) -> Result<(), u8> {
        refuse(6, command >= COMMANDS)?;
        refuse(8, store.len() != STORE)?;
        self.check()?;
        let entry = &mut self.state.commands[command];
        refuse(22, entry.is_open())?;
        *entry = Command::OPENED;
        part(store, command).fill(0);
        Ok(())
    }

    /// Replies how many records and distinct bytes the command had.
    #[inline(never)]
    pub fn end(&mut self, store: &mut [u8], command: usize) -> Result<Counts, u8> {
        refuse(6, command >= COMMANDS)?;
        refuse(8, store.len() != STORE)?;
        self.check()?;
        let records = self.opened(command)?.records();
        let counts = (records.len(), held(records));
        self.state.commands[command] = Command::CLOSED;
        part(store, command).fill(0);
        Ok(counts)
    }

    /// Replies how many bytes were written and how many of them are new.
    #[inline(never)]
    pub fn own_write(
        &mut self,
        store: &mut [u8],
        window: &mut [u8],
        command: usize,
        address: usize,
        bytes: &[u8],
    ) -> Result<Counts, u8> {
        refuse(4, bytes.len() > TRANSFER)?;
        refuse(6, command >= COMMANDS)?;
        refuse(7, window.len() > WINDOW)?;
        refuse(8, store.len() != STORE)?;
        refuse(9, outside(window, address, bytes.len()))?;
        self.check()?;
        self.opened(command)?;
        if bytes.is_empty() {
            return Ok((0, 0));
        }
        let entry = &mut self.state.commands[command];
        let part = part(store, command);
        let stop = address + bytes.len();
        let Span { place, new, .. } = hold(entry, part, address, stop, |_, _| {})?;
        part[place..][..bytes.len()].copy_from_slice(bytes);
        window[address..][..bytes.len()].copy_from_slice(bytes);
        Ok((bytes.len(), new))
    }

    /// A record of an open command, counted from 0.
    #[inline(never)]
    pub fn show(&self, command: usize, index: usize) -> Result<Record, u8> {
        refuse(6, command >= COMMANDS)?;
        self.check()?;
        self.opened(command)?
            .records()
            .get(index)
            .copied()
            .ok_or(25)
    }

    #[inline(never)]
    pub fn fetch(
        &mut self,
        store: &mut [u8],
        window: &[u8],
        destination: &mut [u8],
        command: usize,
        address: usize,
        length: usize,
    ) -> Result<Fetched, u8> {
        refuse(4, length > TRANSFER)?;
        refuse(6, command >= COMMANDS)?;
        refuse(7, window.len() > WINDOW)?;
        refuse(8, store.len() != STORE)?;
        refuse(9, outside(window, address, length))?;
        refuse(10, destination.len() < length)?;
        self.check()?;
        self.opened(command)?;
        if length == 0 {
            return Ok(Fetched {
                fresh: 0,
                replayed: 0,
                looked_at: 0,
            });
        }
        let entry = &mut self.state.commands[command];
        let part = part(store, command);
        let read = |gap: &mut [u8], from: usize| read(window, gap, from);
        let span = hold(entry, part, address, address + length, read)?;
        destination[..length].copy_from_slice(&part[span.place..][..length]);
        Ok(Fetched {
            fresh: span.new,
            replayed: length - span.new,
            looked_at: span.looked_at,
        })
    }

    /// The state is checked once, and the entries are taken from where they are
    /// held.
    #[inline(never)]
    pub fn walk(
        &mut self,
        store: &mut [u8],
        window: &[u8],
        scratch: &mut [u8],
        lists: Lists,
        command: usize,
        transfer: &Transfer,
    ) -> Result<Walked, u8> {
        transfer.check()?;
        refuse(10, scratch.len() < SCRATCH || lists.are_short())?;
        refuse(6, command >= COMMANDS)?;
        refuse(7, window.len() > WINDOW)?;
        refuse(8, store.len() != STORE)?;
        self.check()?;
        self.opened(command)?;
        let entry = &mut self.state.commands[command];
        let part = part(store, command);
        let mut entries = [0; ENTRIES];
        let behind = &mut entries[..transfer.pages() - 1];
        let mut looked_at = 0;
        let followed = transfer.follow(behind, |address, entries| {
            let length = ENTRY * entries.len();
            refuse(9, outside(window, address, length))?;
            let read = |gap: &mut [u8], from: usize| read(window, gap, from);
            let span = hold(entry, part, address, address + length, read)?;
            looked_at += span.looked_at;
            take(&part[span.place..][..length], entries)
        });
        scratch.fill(0);
        followed?;
        lists.addresses[1..][..behind.len()].copy_from_slice(behind);
        Ok(Walked {
            spans: lists.put(transfer),
            looked_at,
        })
    }
}

/// Fills a gap with the window's bytes from an address on.
fn read(window: &[u8], gap: &mut [u8], from: usize) {
    gap.copy_from_slice(&window[from..][..gap.len()]);
}

/// Holds a span of a byte or more, whose gaps are filled by address.
fn hold(
    entry: &mut Command,
    part: &mut [u8],
    address: usize,
    stop: usize,
    fill: impl FnMut(&mut [u8], usize),
) -> Result<Span, u8> {
    let records = entry.records();
    let (first, below) = passed(records, address);
    match records.get(first) {
        Some(record) if start(*record) <= address && stop <= end(*record) => Ok(Span {
            place: below + address - start(*record),
            new: 0,
            looked_at: looked_at(records, first + 1),
        }),
        _ => {
            let meeting = Meeting::of(records, first, address, stop);
            let looked_at = looked_at(records, meeting.last);
            join(entry, part, &meeting, below, fill)?;
            Ok(Span {
                place: below + address - meeting.low,
                new: meeting.fresh(),
                looked_at,
            })
        }
    }
}

/// Makes one record of a span and those that it meets.
fn join(
    entry: &mut Command,
    part: &mut [u8],
    meeting: &Meeting,
    below: usize,
    fill: impl FnMut(&mut [u8], usize),
) -> Result<(), u8> {
    let records = entry.records();
    let behind = held(&records[meeting.last..]);
    let (first, last) = (meeting.first, meeting.last);
    refuse(23, below + meeting.length() + behind > HELD)?;
    refuse(24, records.len() + 1 - (last - first) > RECORDS)?;
    if meeting.fresh() > 0 {
        let part = &mut part[below..][..meeting.length() + behind];
        meeting.spread(part, &records[first..last], behind, fill);
    }
    entry.splice(first, last, meeting.record());
    Ok(())
}
