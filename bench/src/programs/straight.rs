//! No cache at all: every read is one of the window, as in firmware that keeps
//! nothing. It knows no commands, and an own write is no more than a copy.

use plain::walk::{walk, Transfer};

use super::Cache;
use crate::answer::Answer;
use crate::memory::Memory;

pub struct Straight;

impl Cache for Straight {
    fn new() -> Straight {
        Straight
    }

    fn reset(&mut self) {}

    fn begin(&mut self, _command: usize) -> impl Into<Answer> {}

    fn fetch(
        &mut self,
        memory: &mut Memory,
        _command: usize,
        address: usize,
        length: usize,
    ) -> impl Into<Answer> {
        let bytes = &memory.window[address..][..length];
        memory.destination[..length].copy_from_slice(bytes);
        Answer::Unknown
    }

    fn end(&mut self, _command: usize) -> impl Into<Answer> {
        Answer::Unknown
    }

    fn own_write(
        &mut self,
        window: &mut [u8],
        _command: usize,
        address: usize,
        bytes: &[u8],
    ) -> impl Into<Answer> {
        peers::write(window, address, bytes);
        Answer::Unknown
    }

    fn show(&mut self, _command: usize, _index: usize) -> impl Into<Answer> {
        Answer::Unknown
    }

    fn walk(
        &mut self,
        memory: &mut Memory,
        _command: usize,
        transfer: &Transfer,
    ) -> impl Into<Answer> {
        let (window, lists) = memory.walk();
        walk(window, lists, transfer)
    }
}
