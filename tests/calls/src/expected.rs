//! A call, made in the reference.

use reference::book::{Book, Span};
use reference::byte_map::{self, ByteMap};
use reference::cache;
use reference::frames::{read_frame, write_frame, Step};
use reference::journal::{replay, Lent};
use reference::refusal::Refusal;
use reference::walk::{self, walk, Transfer};

use crate::answer::Answer;
use crate::buffers::Buffers;
use crate::call::Call;

/// The number of the interface that this package is written for.
const RELEASE: u64 = 3;

/// What the calls in the reference are made on.
#[derive(Clone)]
pub struct Expected {
    pub book: Book,
    pub map: ByteMap,
    pub buffers: Buffers,
}

impl Expected {
    /// Makes a call with the bytes that it only reads.
    pub fn make(&mut self, call: &Call, data: &[u8]) -> Answer {
        match *call {
            Call::Release => Answer::new([RELEASE]),
            Call::Fresh => {
                self.book = Book::fresh();
                Answer::new([])
            }
            Call::Read(_) => Answer::of(step_of(data)),
            Call::Write {
                kind,
                command,
                span,
                ..
            } => {
                let output = self.buffers.output.lent();
                let made = write_frame(kind, command, span.start, span.length, data, output);
                Answer::of(made.map(|length| [length as u64]))
            }
            Call::Replay(_) => self.replay(data),
            _ if call.is_of_the_map() => self.make_on_map(call, data),
            _ => self.make_on_book(call, data),
        }
    }

    /// The calls of the cache.
    fn make_on_book(&mut self, call: &Call, data: &[u8]) -> Answer {
        let book = &mut self.book;
        let store = self.buffers.store.lent();
        let window = self.buffers.window.lent();
        match *call {
            Call::Begin { command } => Answer::of(cache::begin(book, store, command).map(|()| [])),
            Call::End { command } => {
                let ended = cache::end(book, store, command);
                Answer::of(ended.map(|had| [had.records, had.bytes]))
            }
            Call::Fetch { command, span } => self.fetch(command, span),
            Call::Host { span } => {
                let written = cache::host_write(window, span.start, data);
                Answer::of(written.map(|count| [count, 0]))
            }
            Call::Own { command, span } => {
                let written = cache::own_write(book, store, window, command, span.start, data);
                Answer::of(written.map(|counts| [counts.bytes, counts.fresh]))
            }
            Call::Show { command, index } => {
                let shown = cache::show(book, command, index);
                Answer::of(shown.map(|record| [record.start, record.length]))
            }
            Call::Walk { command, transfer } => self.walk(command, transfer),
            _ => unreachable!("{call} is no call of the cache"),
        }
    }

    /// The calls of the byte map. Its fetch looks at no record, for which its reply
    /// has 0.
    fn make_on_map(&mut self, call: &Call, data: &[u8]) -> Answer {
        let map = &mut self.map;
        let window = self.buffers.window.lent();
        match *call {
            Call::MapFresh => {
                *map = ByteMap::FRESH;
                Answer::new([])
            }
            Call::MapBegin => Answer::of(byte_map::begin(map).map(|()| [])),
            Call::MapEnd => Answer::of(byte_map::end(map).map(|had| [had.records, had.bytes])),
            Call::MapFetch { span } => {
                let destination = self.buffers.destination.lent();
                let fetched = byte_map::fetch(map, window, span.start, span.length, destination);
                Answer::of(fetched.map(|counts| [counts.fresh, counts.replayed, 0]))
            }
            Call::MapOwn { span } => {
                let written = byte_map::own_write(map, window, span.start, data);
                Answer::of(written.map(|counts| [counts.bytes, counts.fresh]))
            }
            _ => unreachable!("{call} is no call of the byte map"),
        }
    }

    fn fetch(&mut self, command: u64, span: Span) -> Answer {
        let fetched = cache::fetch(
            &mut self.book,
            self.buffers.store.lent(),
            self.buffers.window.lent(),
            command,
            span.start,
            span.length,
            self.buffers.destination.lent(),
        );
        Answer::of(fetched.map(|counts| [counts.fresh, counts.replayed, counts.looked]))
    }

    fn walk(&mut self, command: u64, transfer: Transfer) -> Answer {
        let lent = walk::Lent {
            scratch: self.buffers.scratch.lent(),
            addresses: self.buffers.addresses.lent(),
            lengths: self.buffers.lengths.lent(),
        };
        let walked = walk(
            &mut self.book,
            self.buffers.store.lent(),
            self.buffers.window.lent(),
            command,
            transfer,
            lent,
        );
        Answer::of(walked.map(|counts| [counts.spans, counts.looked]))
    }

    /// A journal has its own book. Its log is cut where the output ends.
    fn replay(&mut self, journal: &[u8]) -> Answer {
        let lent = Lent {
            store: self.buffers.store.lent(),
            window: self.buffers.window.lent(),
            destination: self.buffers.destination.lent(),
        };
        let run = replay(journal, lent);
        let output = self.buffers.output.lent();
        let written = run.log.len().min(output.len());
        output[..written].copy_from_slice(&run.log.as_bytes()[..written]);
        let counts = [written, run.carried, run.refused, usize::from(run.early)];
        Answer::new(counts.map(|count| count as u64))
    }
}

/// Kind, command, address and length of a frame, and the bytes it took up.
fn step_of(frame: &[u8]) -> Result<[u64; 5], Refusal> {
    let frame = read_frame(frame)?;
    let [kind, command, address, length] = match frame.step {
        Step::Begin { command } => [0, command, 0, 0],
        Step::Fetch {
            command,
            address,
            length,
        } => [1, command, address, length],
        Step::End { command } => [2, command, 0, 0],
        Step::HostWrite { address, data } => [3, 0, address, data.len() as u64],
        Step::OwnWrite {
            command,
            address,
            data,
        } => [4, command, address, data.len() as u64],
    };
    Ok([kind, command, address, length, frame.consumed as u64])
}
