//! Holds a program that says journals in words against the reference: both get
//! the same journals, as frames and as steps with expectations, and the program
//! has to say what the reference did, line by line.
//!
//! What must be said:
//! - [`device`]: the device of the programs, on which the reference carries out
//!   frames.
//! - [`words`]: what a frame did, in words.
//! - [`journal`]: a journal, frame by frame.
//! - [`said`]: all that the program must print and say.
//!
//! Running the program:
//! - [`expectations`]: what may stand behind a step and holds, or does not.
//! - [`script`]: a journal as steps.
//! - [`case`]: one input with what must be said of it, put to the program.
//! - [`sums`]: all cases, and what came of them.
//! - [`arguments`]: what the command line can ask for.

pub mod arguments;
pub mod case;
pub mod device;
pub mod expectations;
pub mod journal;
pub mod said;
pub mod script;
pub mod sums;
pub mod words;
