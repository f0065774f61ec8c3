//! Byte maps, proved and plain, and each as a cache of one command.

use boundary::ByteMap;
use plain::byte_map::{ByteMap as Plain, ADDRESSES};
use plain::walk::Transfer;

use super::Cache;
use crate::answer::Answer;
use crate::memory::Memory;

/// A byte map that calls can be made on. A reply has the form that the program
/// gives it.
pub trait Map {
    fn fresh() -> Self;
    fn reset(&mut self);
    fn begin(&mut self) -> impl Into<Answer>;
    fn fetch(
        &mut self,
        window: &[u8],
        destination: &mut [u8],
        address: usize,
        length: usize,
    ) -> impl Into<Answer>;
    fn end(&mut self) -> impl Into<Answer>;
    fn own_write(&mut self, window: &mut [u8], address: usize, bytes: &[u8]) -> impl Into<Answer>;
    /// The parts of the map, and a map of other parts.
    fn parts(&self) -> ByteMap;
    fn set_parts(&mut self, parts: &ByteMap);
}

impl Map for ByteMap {
    fn fresh() -> ByteMap {
        ByteMap::FRESH
    }

    fn reset(&mut self) {
        boundary::map_fresh(self);
    }

    fn begin(&mut self) -> impl Into<Answer> {
        boundary::map_begin(self)
    }

    fn fetch(
        &mut self,
        window: &[u8],
        destination: &mut [u8],
        address: usize,
        length: usize,
    ) -> impl Into<Answer> {
        boundary::map_fetch(self, window, destination, address, length)
    }

    fn end(&mut self) -> impl Into<Answer> {
        boundary::map_end(self)
    }

    fn own_write(&mut self, window: &mut [u8], address: usize, bytes: &[u8]) -> impl Into<Answer> {
        boundary::map_own_write(self, window, address, bytes)
    }

    fn parts(&self) -> ByteMap {
        self.clone()
    }

    fn set_parts(&mut self, parts: &ByteMap) {
        self.clone_from(parts);
    }
}

impl<const CHECKED: bool> Map for Plain<CHECKED> {
    fn fresh() -> Plain<CHECKED> {
        Plain::fresh()
    }

    fn reset(&mut self) {
        *self = Plain::fresh();
    }

    fn begin(&mut self) -> impl Into<Answer> {
        Plain::begin(self)
    }

    fn fetch(
        &mut self,
        window: &[u8],
        destination: &mut [u8],
        address: usize,
        length: usize,
    ) -> impl Into<Answer> {
        Plain::fetch(self, window, destination, address, length)
    }

    fn end(&mut self) -> impl Into<Answer> {
        Plain::end(self)
    }

    fn own_write(&mut self, window: &mut [u8], address: usize, bytes: &[u8]) -> impl Into<Answer> {
        Plain::own_write(self, window, address, bytes)
    }

    fn parts(&self) -> ByteMap {
        ByteMap {
            open: self.open,
            words: self.words,
            values: self.values,
        }
    }

    fn set_parts(&mut self, parts: &ByteMap) {
        self.open = parts.open;
        self.words = parts.words;
        self.values = parts.values;
    }
}

/// A byte map in the place of the one command that is measured. It gets the front
/// of the window, as much as it has addresses for, has no records to show and
/// makes no walks.
pub struct OneCommand<M>(Box<M>);

impl<M: Map> Cache for OneCommand<M> {
    fn new() -> OneCommand<M> {
        OneCommand(Box::new(M::fresh()))
    }

    fn reset(&mut self) {
        self.0.reset();
    }

    fn begin(&mut self, _command: usize) -> impl Into<Answer> {
        self.0.begin()
    }

    fn fetch(
        &mut self,
        memory: &mut Memory,
        _command: usize,
        address: usize,
        length: usize,
    ) -> impl Into<Answer> {
        let window = &memory.window[..ADDRESSES];
        let destination = &mut memory.destination;
        self.0.fetch(window, destination, address, length)
    }

    fn own_write(
        &mut self,
        window: &mut [u8],
        _command: usize,
        address: usize,
        bytes: &[u8],
    ) -> impl Into<Answer> {
        self.0.own_write(&mut window[..ADDRESSES], address, bytes)
    }

    fn end(&mut self, _command: usize) -> impl Into<Answer> {
        self.0.end()
    }

    fn show(&mut self, _command: usize, _index: usize) -> impl Into<Answer> {
        Answer::Unknown
    }

    fn walk(
        &mut self,
        _memory: &mut Memory,
        _command: usize,
        _transfer: &Transfer,
    ) -> impl Into<Answer> {
        Answer::Unknown
    }
}
