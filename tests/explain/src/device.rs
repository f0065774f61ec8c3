//! The device of the programs, on which the reference carries out frames.

use reference::book::{Book, Span};
use reference::cache;
use reference::frames::Step;
use reference::limits::{BYTES_PER_CALL, STORE_BYTES};
use reference::refusal::Refusal;

/// The length of the window.
const WINDOW_BYTES: usize = 16_384;

/// A part of a fetch or of an own write: addresses one behind the other that all
/// were in one record before it, or all in none.
#[derive(Clone, Debug, PartialEq, Eq)]
pub struct Part {
    /// Where the record starts, if there is one.
    pub record: Option<u64>,
    pub start: u64,
    pub bytes: Vec<u8>,
}

/// What came of a step that was accepted.
#[derive(Clone, Debug, PartialEq, Eq)]
pub enum Done {
    Begun,
    /// The parts by ascending address, and the records of the command afterwards.
    Fetched(Vec<Part>, Vec<Span>),
    /// The same of an own write.
    OwnWritten(Vec<Part>, Vec<Span>),
    /// How many records and bytes the command had.
    Ended(u64, u64),
    HostWritten,
}

/// All that the calls take.
pub struct Device {
    book: Book,
    store: Vec<u8>,
    window: Vec<u8>,
}

impl Device {
    /// A fresh book, a store and a window of zeroes.
    pub fn fresh() -> Device {
        Device {
            book: Book::fresh(),
            store: vec![0; STORE_BYTES],
            window: vec![0; WINDOW_BYTES],
        }
    }

    /// Makes the call that a step stands for.
    pub fn carry_out(&mut self, step: &Step) -> Result<Done, Refusal> {
        match *step {
            Step::Begin { command } => {
                cache::begin(&mut self.book, &mut self.store, command)?;
                Ok(Done::Begun)
            }
            Step::Fetch {
                command,
                address,
                length,
            } => self.fetch(command, address, length),
            Step::End { command } => {
                let had = cache::end(&mut self.book, &mut self.store, command)?;
                Ok(Done::Ended(had.records, had.bytes))
            }
            Step::HostWrite { address, data } => {
                cache::host_write(&mut self.window, address, data)?;
                Ok(Done::HostWritten)
            }
            Step::OwnWrite {
                command,
                address,
                data,
            } => self.own_write(command, address, data),
        }
    }

    fn fetch(&mut self, command: u64, address: u64, length: u64) -> Result<Done, Refusal> {
        let before = self.records(command);
        let mut destination = [0; BYTES_PER_CALL];
        cache::fetch(
            &mut self.book,
            &mut self.store,
            &self.window,
            command,
            address,
            length,
            &mut destination,
        )?;
        let delivered = &destination[..length as usize];
        Ok(Done::Fetched(
            parts(&before, address, delivered),
            self.records(command),
        ))
    }

    fn own_write(&mut self, command: u64, address: u64, data: &[u8]) -> Result<Done, Refusal> {
        let before = self.records(command);
        let (book, store) = (&mut self.book, &mut self.store);
        cache::own_write(book, store, &mut self.window, command, address, data)?;
        Ok(Done::OwnWritten(
            parts(&before, address, data),
            self.records(command),
        ))
    }

    /// The records of a command, of which a closed one has none.
    fn records(&self, command: u64) -> Vec<Span> {
        self.book.commands[command as usize].records().to_vec()
    }
}

/// The parts of bytes from an address on, given the records before.
fn parts(before: &[Span], address: u64, bytes: &[u8]) -> Vec<Part> {
    let mut parts: Vec<Part> = vec![];
    for (place, byte) in (address..).zip(bytes) {
        let record = before
            .iter()
            .find(|span| (span.start..span.start + span.length).contains(&place))
            .map(|span| span.start);
        match parts.last_mut() {
            Some(part) if part.record == record => part.bytes.push(*byte),
            _ => parts.push(Part {
                record,
                start: place,
                bytes: vec![*byte],
            }),
        }
    }
    parts
}
