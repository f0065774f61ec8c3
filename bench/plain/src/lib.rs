//! The fetch cache in ordinary Rust: the rules, checks, answers and log text
//! of the proved library, written to be fast with what the standard library
//! has. It is what the proved library is measured by.
//!
//! - [`state`]: the records, and whether they hold together.
//! - [`calls`]: the calls, with a check of the state at each and without.
//! - [`walk`]: the entries and spans of a walk, and one without any cache.
//! - [`byte_map`]: the byte map, with a check of the map at each call and without.
//! - [`meeting`]: a span among records.
//! - [`frames`]: the reader of frames.
//! - [`text`]: text in a lent buffer.
//! - [`journal`]: frames carried out, and their log.

pub mod byte_map;
pub mod calls;
pub mod frames;
pub mod journal;
mod meeting;
pub mod state;
mod text;
pub mod walk;
