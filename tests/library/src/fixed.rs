//! The cases of every run, whatever its seed.

use compare::fixed;

use crate::case::Case;

const WORKED_FRAMES: &[u8] = include_bytes!("../../../examples/worked.frames");
const WORKED_LOG: &[u8] = include_bytes!("../../../examples/worked.log");

/// The fixed inputs of the comparison of log programs, and the worked example
/// with its log cut at every length.
pub fn cases() -> Vec<Case> {
    let inputs = fixed::cases();
    let whole = inputs
        .iter()
        .map(|case| Case::plain(&case.name, &case.input, case.expected.len() + 100_000));
    let cuts = (0..=WORKED_LOG.len() + 1).map(|length| {
        let name = format!("the worked example, {length} bytes of output");
        Case::plain(&name, WORKED_FRAMES, length)
    });
    whole.chain(cuts).collect()
}
