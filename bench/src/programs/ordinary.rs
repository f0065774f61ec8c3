//! The plain program with a store and a scratch.

use boundary::Words;
use plain::calls::{host_write, Cache as Plain};
use plain::state::State;
use plain::walk::Transfer;

use super::{Cache, Stateful};
use crate::answer::Answer;
use crate::buffer::Buffer;
use crate::memory::{scratch, store, Memory};

pub struct Ordinary<const CHECKED: bool> {
    cache: Box<Plain<CHECKED>>,
    store: Buffer,
    scratch: Buffer,
}

impl<const CHECKED: bool> Cache for Ordinary<CHECKED> {
    fn new() -> Ordinary<CHECKED> {
        Ordinary {
            cache: Box::new(Plain::fresh()),
            store: store(),
            scratch: scratch(),
        }
    }

    fn reset(&mut self) {
        *self.cache = Plain::fresh();
    }

    fn begin(&mut self, command: usize) -> impl Into<Answer> {
        self.cache.begin(&mut self.store, command)
    }

    fn fetch(
        &mut self,
        memory: &mut Memory,
        command: usize,
        address: usize,
        length: usize,
    ) -> impl Into<Answer> {
        let (window, destination) = (&memory.window, &mut memory.destination);
        let store = &mut self.store;
        self.cache
            .fetch(store, window, destination, command, address, length)
    }

    fn end(&mut self, command: usize) -> impl Into<Answer> {
        self.cache.end(&mut self.store, command)
    }

    fn host_write(&mut self, window: &mut [u8], address: usize, bytes: &[u8]) -> impl Into<Answer> {
        host_write(window, address, bytes)
    }

    fn own_write(
        &mut self,
        window: &mut [u8],
        command: usize,
        address: usize,
        bytes: &[u8],
    ) -> impl Into<Answer> {
        let store = &mut self.store;
        self.cache.own_write(store, window, command, address, bytes)
    }

    fn show(&mut self, command: usize, index: usize) -> impl Into<Answer> {
        self.cache.show(command, index)
    }

    fn walk(
        &mut self,
        memory: &mut Memory,
        command: usize,
        transfer: &Transfer,
    ) -> impl Into<Answer> {
        let (window, lists) = memory.walk();
        let (store, scratch) = (&mut self.store, &mut self.scratch);
        self.cache
            .walk(store, window, scratch, lists, command, transfer)
    }
}

impl<const CHECKED: bool> Stateful for Ordinary<CHECKED> {
    fn words(&self) -> Words {
        self.cache.state.words()
    }

    fn set_words(&mut self, words: &Words) {
        self.cache.state = State::of_words(words);
    }

    fn store(&mut self) -> &mut Buffer {
        &mut self.store
    }

    fn scratch(&mut self) -> &mut Buffer {
        &mut self.scratch
    }
}
