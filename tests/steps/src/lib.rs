//! Holds a program that turns readable steps into frames against the grammar
//! of steps and the reference's writer of frames.
//!
//! What must be written:
//! - [`step`]: one step, its frame by the reference, and ways to write it down.
//! - [`grammar`]: what a line says.
//! - [`quoted`]: text as the program quotes it.
//! - [`expected`]: all that the program must write for an input.
//!
//! Inputs:
//! - [`random`]: step files that depend on a seed alone.
//! - [`fixed`]: inputs that are run every time.
//! - [`bad`]: lines without a frame, each with the reason that must be given.
//! - [`case`]: one input with what the program must write for it.
//! - [`arguments`]: what the command line can ask for.

pub mod arguments;
pub mod bad;
pub mod case;
pub mod expected;
pub mod fixed;
pub mod grammar;
pub mod quoted;
pub mod random;
pub mod step;
