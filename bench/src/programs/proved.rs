//! The proved library with a state, a store and a scratch.

use boundary::{Words, WORDS};
use plain::walk::Transfer;

use super::{Cache, Stateful};
use crate::answer::Answer;
use crate::buffer::Buffer;
use crate::memory::{scratch, store, Memory};

pub struct Proved {
    state: Box<Words>,
    store: Buffer,
    scratch: Buffer,
}

impl Cache for Proved {
    fn new() -> Proved {
        Proved {
            state: Box::new([0; WORDS]),
            store: store(),
            scratch: scratch(),
        }
    }

    fn reset(&mut self) {
        boundary::fresh(&mut self.state);
    }

    fn begin(&mut self, command: usize) -> impl Into<Answer> {
        boundary::begin(&mut self.state, &mut self.store, command)
    }

    fn fetch(
        &mut self,
        memory: &mut Memory,
        command: usize,
        address: usize,
        length: usize,
    ) -> impl Into<Answer> {
        let (window, destination) = (&memory.window, &mut memory.destination);
        let (state, store) = (&mut self.state, &mut self.store);
        boundary::fetch(state, store, window, destination, command, address, length)
    }

    fn end(&mut self, command: usize) -> impl Into<Answer> {
        boundary::end(&mut self.state, &mut self.store, command)
    }

    fn host_write(&mut self, window: &mut [u8], address: usize, bytes: &[u8]) -> impl Into<Answer> {
        boundary::host_write(window, address, bytes)
    }

    fn own_write(
        &mut self,
        window: &mut [u8],
        command: usize,
        address: usize,
        bytes: &[u8],
    ) -> impl Into<Answer> {
        let (state, store) = (&mut self.state, &mut self.store);
        boundary::own_write(state, store, window, command, address, bytes)
    }

    fn show(&mut self, command: usize, index: usize) -> impl Into<Answer> {
        boundary::show(&self.state, command, index)
    }

    fn walk(
        &mut self,
        memory: &mut Memory,
        command: usize,
        transfer: &Transfer,
    ) -> impl Into<Answer> {
        boundary::walk(
            &mut self.state,
            &mut self.store,
            &memory.window,
            &mut self.scratch,
            &mut memory.addresses,
            &mut memory.lengths,
            command,
            transfer.prp1,
            transfer.prp2,
            transfer.length,
        )
    }
}

impl Stateful for Proved {
    fn words(&self) -> Words {
        *self.state
    }

    fn set_words(&mut self, words: &Words) {
        *self.state = *words;
    }

    fn store(&mut self) -> &mut Buffer {
        &mut self.store
    }

    fn scratch(&mut self) -> &mut Buffer {
        &mut self.scratch
    }
}
