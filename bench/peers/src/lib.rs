//! What people would write instead of the fetch cache, for the same job: a
//! byte that a command has fetched or written is the same at every later fetch.
//! Neither has limits or checks; numbers that make no sense end the program.
//!
//! - [`ranges`]: a map of ranges, each with its bytes.
//! - [`bitmap`]: a bit for each address, and a copy of the window beside it.

pub mod bitmap;
pub mod ranges;

/// How many commands there are.
const COMMANDS: usize = 8;

/// Puts bytes into the window.
pub fn write(window: &mut [u8], address: usize, bytes: &[u8]) -> usize {
    window[address..][..bytes.len()].copy_from_slice(bytes);
    bytes.len()
}
