//! A second opinion on the command fetch cache, written from documents 01 (the
//! agreed scope) and 02 (the agreed changes; of it F-1 to F-3, F-5 and F-6)
//! alone. docs/RULES.md has their rules.
//!
//! A fetch or an own write is worked out here through a map from address to
//! held byte, whose unbroken runs are the records, and only then packed back
//! into the book and the store.
//!
//! - [`limits`]: the constants of the device.
//! - [`refusal`]: the numbers with which a call or a frame is turned away.
//! - [`book`]: spans, the book of records, and the check that it holds together.
//! - [`cache`]: the six calls.
//! - [`walk`]: the walk over page entries.
//! - [`byte_map`]: the plain engine of one command.
//! - [`frames`]: the reader and the writer of step frames.
//! - [`journal`]: frames carried out one after the other, and their log.
//! - [`log`]: the log program, from input bytes to output text.

pub mod book;
pub mod byte_map;
pub mod cache;
pub mod frames;
mod held;
pub mod journal;
pub mod limits;
pub mod log;
pub mod refusal;
pub mod walk;
