//! The programs as caches that calls can be made on.
//!
//! - [`proved`]: the proved library.
//! - [`ordinary`]: the plain program, with checks of the state and without.
//! - [`maps`]: the byte map, proved and plain.
//! - [`rivals`]: two ways without any checks.
//! - [`straight`]: none, the window being read each time.
//! - [`nothing`]: what making a call costs without the call.

mod maps;
mod nothing;
mod ordinary;
mod proved;
mod rivals;
mod straight;

pub use maps::{Map, OneCommand};
pub use nothing::Nothing;
pub use ordinary::Ordinary;
pub use proved::Proved;
pub use straight::Straight;

use boundary::Words;
use plain::walk::Transfer;

use crate::answer::Answer;
use crate::buffer::Buffer;
use crate::memory::Memory;

/// A program with what it keeps between calls. A reply has the form that the
/// program gives it. A host write is that of a program without checks.
pub trait Cache {
    fn new() -> Self;
    /// Back to the beginning, in the same memory.
    fn reset(&mut self);
    fn begin(&mut self, command: usize) -> impl Into<Answer>;
    fn fetch(
        &mut self,
        memory: &mut Memory,
        command: usize,
        address: usize,
        length: usize,
    ) -> impl Into<Answer>;
    fn end(&mut self, command: usize) -> impl Into<Answer>;
    fn show(&mut self, command: usize, index: usize) -> impl Into<Answer>;

    fn host_write(&mut self, window: &mut [u8], address: usize, bytes: &[u8]) -> impl Into<Answer> {
        peers::write(window, address, bytes)
    }

    fn own_write(
        &mut self,
        window: &mut [u8],
        command: usize,
        address: usize,
        bytes: &[u8],
    ) -> impl Into<Answer>;

    fn walk(
        &mut self,
        memory: &mut Memory,
        command: usize,
        transfer: &Transfer,
    ) -> impl Into<Answer>;
}

/// A program that keeps its state as words or can tell it as such.
pub trait Stateful: Cache {
    fn words(&self) -> Words;
    fn set_words(&mut self, words: &Words);
    fn store(&mut self) -> &mut Buffer;
    fn scratch(&mut self) -> &mut Buffer;
}
