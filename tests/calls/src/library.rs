//! A call, made in the proved library.

use boundary::{ByteMap, Fetched, Words, Written};
use reference::book::Span;
use reference::walk::Transfer;

use crate::answer::Answer;
use crate::buffers::Buffers;
use crate::call::Call;

/// What the calls in the library are made on.
#[derive(Clone)]
pub struct Library {
    pub words: Words,
    pub map: ByteMap,
    pub buffers: Buffers,
}

impl Library {
    /// Makes a call with the bytes that it only reads.
    pub fn make(&mut self, call: &Call, data: &[u8]) -> Answer {
        match *call {
            Call::Release => Answer::new([u64::from(boundary::release())]),
            Call::Fresh => {
                boundary::fresh(&mut self.words);
                Answer::new([])
            }
            Call::Read(_) => {
                let step = boundary::frame_read(data);
                let fields = [
                    step.kind,
                    step.command,
                    step.address,
                    step.length,
                    step.taken,
                ];
                Answer::status(step.status, fields.map(|number| number as u64))
            }
            Call::Write {
                kind,
                command,
                span,
                ..
            } => {
                let [kind, command] = [kind, command].map(|number| number as usize);
                let (address, length) = (span.start as usize, span.length as usize);
                let output = self.buffers.output.lent();
                let framed = boundary::frame_write(output, kind, command, address, length, data);
                Answer::status(framed.status, [framed.length as u64])
            }
            Call::Replay(_) => self.replay(data),
            _ if call.is_of_the_map() => self.make_on_map(call, data),
            _ => self.make_on_state(call, data),
        }
    }

    /// The calls of the cache.
    fn make_on_state(&mut self, call: &Call, data: &[u8]) -> Answer {
        match *call {
            Call::Begin { command } => self.begin(command as usize),
            Call::End { command } => self.end(command as usize),
            Call::Fetch { command, span } => {
                self.fetch(command as usize, span.start as usize, span.length as usize)
            }
            Call::Host { span } => self.host(span.start as usize, data),
            Call::Own { command, span } => self.own(command as usize, span.start as usize, data),
            Call::Show { command, index } => {
                let shown = boundary::show(&self.words, command as usize, index as usize);
                let record = [shown.start, shown.length].map(u64::from);
                Answer::status(shown.status, record)
            }
            Call::Walk { command, transfer } => self.walk(command as usize, transfer),
            _ => unreachable!("{call} is no call of the cache"),
        }
    }

    /// The calls of the byte map.
    fn make_on_map(&mut self, call: &Call, data: &[u8]) -> Answer {
        match *call {
            Call::MapFresh => {
                boundary::map_fresh(&mut self.map);
                Answer::new([])
            }
            Call::MapBegin => Answer::status(boundary::map_begin(&mut self.map).status, []),
            Call::MapFetch { span } => self.map_fetch(span),
            Call::MapEnd => {
                let ended = boundary::map_end(&mut self.map);
                Answer::status(ended.status, [ended.records as u64, ended.bytes as u64])
            }
            Call::MapOwn { span } => {
                let window = self.buffers.window.lent();
                let address = span.start as usize;
                written(boundary::map_own_write(
                    &mut self.map,
                    window,
                    address,
                    data,
                ))
            }
            _ => unreachable!("{call} is no call of the byte map"),
        }
    }

    fn begin(&mut self, command: usize) -> Answer {
        let store = self.buffers.store.lent();
        let begun = boundary::begin(&mut self.words, store, command);
        Answer::status(begun.status, [])
    }

    fn end(&mut self, command: usize) -> Answer {
        let store = self.buffers.store.lent();
        let ended = boundary::end(&mut self.words, store, command);
        Answer::status(ended.status, [ended.records as u64, ended.bytes as u64])
    }

    fn fetch(&mut self, command: usize, address: usize, length: usize) -> Answer {
        fetched(boundary::fetch(
            &mut self.words,
            self.buffers.store.lent(),
            self.buffers.window.lent(),
            self.buffers.destination.lent(),
            command,
            address,
            length,
        ))
    }

    fn host(&mut self, address: usize, data: &[u8]) -> Answer {
        let window = self.buffers.window.lent();
        written(boundary::host_write(window, address, data))
    }

    fn own(&mut self, command: usize, address: usize, data: &[u8]) -> Answer {
        written(boundary::own_write(
            &mut self.words,
            self.buffers.store.lent(),
            self.buffers.window.lent(),
            command,
            address,
            data,
        ))
    }

    fn walk(&mut self, command: usize, transfer: Transfer) -> Answer {
        let walked = boundary::walk(
            &mut self.words,
            self.buffers.store.lent(),
            self.buffers.window.lent(),
            self.buffers.scratch.lent(),
            self.buffers.addresses.lent(),
            self.buffers.lengths.lent(),
            command,
            transfer.prp1,
            transfer.prp2,
            transfer.length as usize,
        );
        let counts = [walked.spans as u64, walked.looked_at as u64];
        Answer::status(walked.status, counts)
    }

    fn map_fetch(&mut self, span: Span) -> Answer {
        fetched(boundary::map_fetch(
            &mut self.map,
            self.buffers.window.lent(),
            self.buffers.destination.lent(),
            span.start as usize,
            span.length as usize,
        ))
    }

    fn replay(&mut self, journal: &[u8]) -> Answer {
        let replayed = boundary::journal_replay(
            journal,
            self.buffers.store.lent(),
            self.buffers.window.lent(),
            self.buffers.destination.lent(),
            self.buffers.output.lent(),
        );
        let counts = [replayed.written, replayed.carried, replayed.refused];
        let [written, carried, refused] = counts.map(|count| count as u64);
        Answer::new([written, carried, refused, u64::from(replayed.early)])
    }
}

/// What a fetch answers.
fn fetched(reply: Fetched) -> Answer {
    let Fetched {
        status,
        fresh,
        replayed,
        looked_at,
    } = reply;
    Answer::status(
        status,
        [fresh, replayed, looked_at].map(|count| count as u64),
    )
}

/// What a write answers.
fn written(reply: Written) -> Answer {
    let Written {
        status,
        bytes,
        fresh,
    } = reply;
    Answer::status(status, [bytes as u64, fresh as u64])
}
