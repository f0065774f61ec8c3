//! What one command holds, taken out of book and store: a map from address
//! to byte. Its records are the unbroken runs of the addresses in it.

use std::collections::BTreeMap;

use crate::book::{CommandBook, Span};

/// The held bytes of a command by address.
pub struct Held {
    pub bytes: BTreeMap<u64, u8>,
}

impl Held {
    /// Reads a command's records, and its bytes from the front of its store
    /// part, where they are packed by ascending address ("The book and the
    /// store" in 01, the agreed scope; docs/RULES.md has its rules).
    pub fn unpack(command: &CommandBook, part: &[u8]) -> Held {
        let records = command.records().iter();
        let addresses = records.flat_map(|record| record.addresses());
        let bytes = addresses.zip(part.iter().copied()).collect();
        Held { bytes }
    }

    /// Takes in each byte of the span that is not held yet from the window,
    /// and answers how many those were ("Fetch" in 01). The span must lie in
    /// the window.
    pub fn take_in(&mut self, span: Span, window: &[u8]) -> u64 {
        let held_before = self.bytes.len();
        for address in span.addresses() {
            self.bytes
                .entry(address)
                .or_insert_with(|| window[address as usize]);
        }
        (self.bytes.len() - held_before) as u64
    }

    /// Takes in each byte of the span from the data, over those that are held,
    /// and answers how many were not held yet ("Own write" in F-3 of 02, the
    /// agreed changes; docs/RULES.md has them too).
    pub fn take_over(&mut self, span: Span, data: &[u8]) -> u64 {
        let held_before = self.bytes.len();
        self.bytes
            .extend(span.addresses().zip(data.iter().copied()));
        (self.bytes.len() - held_before) as u64
    }

    /// The longest unbroken runs of held addresses, ascending. They are the
    /// records: a span is joined with every record that shares a byte with it
    /// or touches it (F-1 of 02).
    pub fn runs(&self) -> Vec<Span> {
        let mut runs: Vec<Span> = vec![];
        for &address in self.bytes.keys() {
            match runs.last_mut() {
                Some(run) if run.end() == u128::from(address) => run.length += 1,
                _ => runs.push(Span {
                    start: address,
                    length: 1,
                }),
            }
        }
        runs
    }

    /// The held bytes of a span that lies wholly in the map, by ascending
    /// address.
    pub fn bytes_of(&self, span: Span) -> impl Iterator<Item = u8> + '_ {
        let addresses = span.start..span.start + span.length;
        self.bytes.range(addresses).map(|(_, byte)| *byte)
    }

    /// Writes the records into a command and the bytes to the front of its
    /// store part. The places behind them stay as they are.
    pub fn pack(&self, command: &mut CommandBook, part: &mut [u8]) {
        *command = CommandBook::open_with(&self.runs());
        for (place, byte) in part.iter_mut().zip(self.bytes.values()) {
            *place = *byte;
        }
    }
}
