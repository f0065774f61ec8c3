//! Holds a log program against the reference: both get the same journals, and
//! what the program prints has to be the reference's log, byte for byte, and
//! what it says on standard error the sums of that log.
//!
//! A journal is the input of a log program, frames one after the other. It is
//! made from a seed alone.
//!
//! Making journals:
//! - [`draft`]: a journal that is being put together.
//! - [`walks`]: the kinds of stretches, with their figures; [`walk`] makes one.
//! - [`brims`]: stretches that fill a command exactly.
//! - [`touches`]: stretches of spans that touch held ones.
//! - [`unreadable`]: frames that end a run.
//! - [`journals`]: the profiles, and the journal of a seed.
//! - [`fixed`]: the inputs that are compared in every run, some of them from
//!   [`heads`], which has the front of a frame wrong in every bit.
//!
//! Comparing:
//! - [`case`]: one input with the log it must give, put to the program.
//! - [`child`]: the program as a child process.
//! - [`said`]: what must be on standard error.
//! - [`difference`]: the first line that is not as it must be.
//! - [`tally`]: what the lines of a log say, counted.
//! - [`workers`]: two threads for many cases.
//! - [`campaign`]: all cases of a run, and its sums.
//! - [`arguments`]: what the command line can ask for.

pub mod arguments;
pub mod brims;
pub mod campaign;
pub mod case;
pub mod child;
pub mod difference;
pub mod draft;
pub mod fixed;
pub mod heads;
pub mod journals;
pub mod said;
pub mod tally;
pub mod touches;
pub mod unreadable;
pub mod walk;
pub mod walks;
pub mod workers;
