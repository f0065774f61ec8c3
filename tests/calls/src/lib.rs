//! Direct calls, made in the proved library and in the reference, with all that
//! each answers and leaves compared.
//!
//! Saying what is called:
//! - [`call`]: one call, and what sets the ground for calls.
//! - [`line`]: one line of the file of calls.
//! - [`file`]: the whole file, `calls.txt`.
//! - [`random`]: lists of calls that depend on a seed alone; [`states`] has the
//!   words that some start from, and [`walks`] the walks and page entries in them.
//! - [`map_lists`]: such lists of calls of the byte map.
//!
//! Calling and comparing:
//! - [`buffers`]: the buffers of which parts are lent.
//! - [`words`]: the words of a state and the reference's book, one from the other.
//! - [`maps`]: the byte map of both sides.
//! - [`library`] and [`expected`]: a call in the library and in the reference.
//! - [`answer`]: what a call answers.
//! - [`pair`]: both sides, compared after each call.
//! - [`tally`]: the answers, counted.
//! - [`sums`]: all calls, and what came of them.

pub mod answer;
pub mod buffers;
pub mod call;
pub mod expected;
pub mod file;
pub mod library;
pub mod line;
#[cfg(test)]
mod lists;
pub mod map_lists;
pub mod maps;
pub mod pair;
pub mod random;
pub mod states;
pub mod sums;
pub mod tally;
pub mod walks;
pub mod words;
