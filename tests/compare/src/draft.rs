//! A journal that is being put together, and what has to be remembered of it
//! to choose the next frame well.

use sampling::generator::Generator;
use sampling::layout;

/// The most bytes that a log program takes as its input.
pub const LONGEST: usize = 32_768;

/// The length of the window that a log program has.
pub const WINDOW: u64 = 16_384;

/// The most bytes of a fetch or a write in a frame that can be read.
pub const LONGEST_CALL: u64 = 4_096;

/// The bytes of a frame before its data.
const HEAD: usize = 5;

/// Frames so far. A frame that would pass the limit is left out.
pub struct Draft {
    pub numbers: Generator,
    limit: usize,
    bytes: Vec<u8>,
    open: [bool; 8],
    held: [Vec<(u64, u64)>; 8],
}

impl Draft {
    /// No frames yet; there may be so many bytes of them.
    pub fn new(seed: u64, limit: usize) -> Draft {
        Draft {
            numbers: Generator::new(seed),
            limit,
            bytes: vec![],
            open: [false; 8],
            held: Default::default(),
        }
    }

    /// The journal as it stands.
    pub fn into_bytes(self) -> Vec<u8> {
        self.bytes
    }

    /// How many bytes may still be added.
    pub fn room(&self) -> usize {
        self.limit - self.bytes.len()
    }

    /// Whether one more frame without data finds room.
    pub fn takes_a_frame(&self) -> bool {
        self.room() >= HEAD
    }

    /// Whether the frames so far leave the command open.
    pub fn is_open(&self, command: u64) -> bool {
        self.open[command as usize]
    }

    /// A span that the command asked for or wrote since its begin, if there is
    /// one.
    pub fn earlier_span(&mut self, command: u64) -> Option<(u64, u64)> {
        let spans = &self.held[command as usize];
        if spans.is_empty() {
            return None;
        }
        let place = self.numbers.below(spans.len() as u64);
        Some(spans[place as usize])
    }

    /// Ends the command if it is open, and begins it.
    pub fn begin_anew(&mut self, command: u64) {
        if self.is_open(command) {
            self.end(command);
        }
        self.begin(command);
    }

    pub fn begin(&mut self, command: u64) {
        if self.add(&layout::frame(0, command, 0, 0, &[])) {
            self.open[command as usize] = true;
        }
    }

    /// A length above 4,096 is brought down to it, since a frame of more
    /// cannot be read.
    pub fn fetch(&mut self, command: u64, address: u64, length: u64) {
        let length = length.min(LONGEST_CALL);
        if self.add(&layout::frame(1, command, address, length, &[])) {
            self.remember(command, address, length);
        }
    }

    pub fn end(&mut self, command: u64) {
        if self.add(&layout::frame(2, command, 0, 0, &[])) {
            self.open[command as usize] = false;
            self.held[command as usize].clear();
        }
    }

    /// Ends all commands, open or not, which shows how many records and bytes
    /// each one has.
    pub fn end_all(&mut self) {
        for command in 0..8 {
            self.end(command);
        }
    }

    pub fn host_write(&mut self, address: u64, data: &[u8]) {
        self.add(&layout::frame(3, 0, address, data.len() as u64, data));
    }

    pub fn own_write(&mut self, command: u64, address: u64, data: &[u8]) {
        let length = data.len() as u64;
        if self.add(&layout::frame(4, command, address, length, data)) {
            self.remember(command, address, length);
        }
    }

    /// A fetch or, one in four, an own write of any bytes.
    pub fn fetch_or_write(&mut self, command: u64, address: u64, length: u64) {
        if self.numbers.one_in(4) {
            let data = self.numbers.bytes(length as usize);
            self.own_write(command, address, &data);
        } else {
            self.fetch(command, address, length);
        }
    }

    /// Takes in a span that an open command holds, unless it was refused.
    fn remember(&mut self, command: u64, address: u64, length: u64) {
        if self.is_open(command) && address + length <= WINDOW {
            self.held[command as usize].push((address, length));
        }
    }

    /// Adds any bytes, if they find room, and answers whether they did.
    pub fn add(&mut self, bytes: &[u8]) -> bool {
        let fits = bytes.len() <= self.room();
        if fits {
            self.bytes.extend_from_slice(bytes);
        }
        fits
    }

    /// Adds readable frames up to the limit itself. There must be room for one
    /// frame at least, or for nothing.
    pub fn fill_up(&mut self) {
        while self.room() >= 2 * HEAD {
            let (command, address) = (self.numbers.below(8), self.numbers.below(WINDOW));
            self.fetch(command, address, 1);
        }
        if self.takes_a_frame() {
            let data = self.numbers.bytes(self.room() - HEAD);
            self.host_write(0, &data);
        }
    }
}
