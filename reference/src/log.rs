//! The log program as a function ("The log program" in 01, the agreed scope;
//! docs/RULES.md has its rules).

use crate::journal::{self, Lent};
use crate::limits::{BYTES_PER_CALL, STORE_BYTES};

/// The most bytes that the program takes as its input.
pub const INPUT_BYTES: usize = 32_768;

/// The length of the program's window.
const LOG_WINDOW_BYTES: usize = 16_384;

/// Carries out the frames of the input with a store and a window of zeroes,
/// and gives one line for each.
pub fn run(input: &[u8]) -> String {
    if input.len() > INPUT_BYTES {
        return "input too long\n".to_string();
    }
    let lent = Lent {
        store: &mut [0; STORE_BYTES],
        window: &mut [0; LOG_WINDOW_BYTES],
        destination: &mut [0; BYTES_PER_CALL],
    };
    journal::replay(input, lent).log
}
