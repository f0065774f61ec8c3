//! All that can be lent to a call, kept together, so that a refused call can
//! be seen to change none of it.

use reference::book::{Book, CommandBook, Span};
use reference::cache::{self, Fetched};
use reference::refusal::Refusal;
use sampling::generator::Generator;

/// A book and the three buffers.
#[derive(Clone, PartialEq, Eq)]
pub struct Scene {
    pub book: Book,
    pub store: Vec<u8>,
    pub window: Vec<u8>,
    pub destination: Vec<u8>,
}

impl Scene {
    /// The fresh book, with all buffers full of any bytes.
    pub fn fresh(window_length: usize) -> Scene {
        let mut generator = Generator::new(window_length as u64);
        Scene {
            book: Book::fresh(),
            store: generator.bytes(32_768),
            window: generator.bytes(window_length),
            destination: generator.bytes(4_200),
        }
    }

    /// The start of the marked situations: one open command without records,
    /// and a window of 16,384 bytes.
    pub fn with_open(command: u64) -> Scene {
        let mut scene = Scene::fresh(16_384);
        scene.begin(command).unwrap();
        scene
    }

    /// A fresh scene in which the command is open with these records.
    pub fn with_records(command: u64, records: &[(u64, u64)]) -> Scene {
        let mut scene = Scene::fresh(65_536);
        scene.book.commands[command as usize] = open_with(records);
        assert!(scene.book.holds_together());
        scene
    }

    pub fn begin(&mut self, command: u64) -> Result<(), u8> {
        self.guarded(|scene| cache::begin(&mut scene.book, &mut scene.store, command))
    }

    /// Answers the fresh and the replayed count.
    pub fn fetch(&mut self, command: u64, address: u64, length: u64) -> Result<(u64, u64), u8> {
        self.fetched(command, address, length)
            .map(|counts| (counts.fresh, counts.replayed))
    }

    /// The same call, with all its counts.
    pub fn fetched(&mut self, command: u64, address: u64, length: u64) -> Result<Fetched, u8> {
        self.guarded(|scene| {
            cache::fetch(
                &mut scene.book,
                &mut scene.store,
                &scene.window,
                command,
                address,
                length,
                &mut scene.destination,
            )
        })
    }

    /// Answers the number of records and of bytes.
    pub fn end(&mut self, command: u64) -> Result<(u64, u64), u8> {
        self.guarded(|scene| cache::end(&mut scene.book, &mut scene.store, command))
            .map(|had| (had.records, had.bytes))
    }

    pub fn host_write(&mut self, address: u64, data: &[u8]) -> Result<u64, u8> {
        self.guarded(|scene| cache::host_write(&mut scene.window, address, data))
    }

    /// Answers how many bytes were written and how many of their addresses were
    /// not held.
    pub fn own_write(&mut self, command: u64, address: u64, data: &[u8]) -> Result<(u64, u64), u8> {
        self.guarded(|scene| {
            cache::own_write(
                &mut scene.book,
                &mut scene.store,
                &mut scene.window,
                command,
                address,
                data,
            )
        })
        .map(|written| (written.bytes, written.fresh))
    }

    /// Answers start and length of the record.
    pub fn show(&mut self, command: u64, index: u64) -> Result<(u64, u64), u8> {
        self.guarded(|scene| cache::show(&scene.book, command, index))
            .map(|record| (record.start, record.length))
    }

    /// All records of an open command, asked for one by one.
    pub fn records(&mut self, command: u64) -> Vec<(u64, u64)> {
        let mut records = vec![];
        loop {
            match self.show(command, records.len() as u64) {
                Ok(record) => records.push(record),
                Err(25) => return records,
                Err(number) => panic!("show was refused with {number}"),
            }
        }
    }

    /// The bytes of the window at a span.
    pub fn window_at(&self, address: usize, length: usize) -> Vec<u8> {
        self.window[address..address + length].to_vec()
    }

    /// Makes a call and, if it is refused, sees to it that nothing changed.
    fn guarded<Reply>(
        &mut self,
        call: impl FnOnce(&mut Scene) -> Result<Reply, Refusal>,
    ) -> Result<Reply, u8> {
        let before = self.clone();
        call(self).map_err(|refusal| {
            assert!(*self == before, "{refusal:?} changed something");
            refusal.number()
        })
    }
}

/// An open command with these records, each a start and a length.
pub fn open_with(records: &[(u64, u64)]) -> CommandBook {
    let spans: Vec<Span> = records
        .iter()
        .map(|&(start, length)| Span { start, length })
        .collect();
    CommandBook::open_with(&spans)
}

/// Records of the same length, the starts so far apart, from 0 on.
pub fn evenly(count: u64, distance: u64, length: u64) -> Vec<(u64, u64)> {
    (0..count).map(|place| (place * distance, length)).collect()
}
