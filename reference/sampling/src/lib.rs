//! What tests draw their inputs from, and the command line of test programs.
//! It knows the bit layout of a frame and nothing else of the cache.
//!
//! - [`generator`]: numbers that depend on a seed alone.
//! - [`spans`]: ways to choose a span.
//! - [`layout`]: the bytes of a frame, well-formed or not.
//! - [`arguments`]: the command line of a test program, and its status.

pub mod arguments;
pub mod generator;
pub mod layout;
pub mod spans;
