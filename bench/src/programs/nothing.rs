//! A program that does nothing. What its calls cost is the cost of making
//! calls, which is taken off all others.

use plain::walk::Transfer;

use super::Cache;
use crate::answer::Answer;
use crate::memory::Memory;

pub struct Nothing;

impl Cache for Nothing {
    fn new() -> Nothing {
        Nothing
    }

    fn reset(&mut self) {}

    fn begin(&mut self, _command: usize) -> impl Into<Answer> {}

    fn fetch(
        &mut self,
        _memory: &mut Memory,
        _command: usize,
        _address: usize,
        _length: usize,
    ) -> impl Into<Answer> {
    }

    fn end(&mut self, _command: usize) -> impl Into<Answer> {}

    fn host_write(
        &mut self,
        _window: &mut [u8],
        _address: usize,
        _bytes: &[u8],
    ) -> impl Into<Answer> {
    }

    fn own_write(
        &mut self,
        _window: &mut [u8],
        _command: usize,
        _address: usize,
        _bytes: &[u8],
    ) -> impl Into<Answer> {
    }

    fn show(&mut self, _command: usize, _index: usize) -> impl Into<Answer> {}

    fn walk(
        &mut self,
        _memory: &mut Memory,
        _command: usize,
        _transfer: &Transfer,
    ) -> impl Into<Answer> {
    }
}
