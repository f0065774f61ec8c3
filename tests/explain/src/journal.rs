//! A journal, frame by frame.

use reference::frames::{read_frame, Step};
use reference::log;

use crate::device::Device;
use crate::words;

/// A frame that was carried out, or the unreadable one at the end.
pub struct Frame<'a> {
    /// Nothing, if it cannot be read.
    pub step: Option<Step<'a>>,
    /// What it did, in words.
    pub words: String,
    /// The answer as the log prints it, behind number and letter.
    pub answer: String,
}

/// The frames of a journal up to the first that cannot be read.
pub fn frames(journal: &[u8]) -> Vec<Frame<'_>> {
    let mut device = Device::fresh();
    let mut rest = journal;
    let log = log::run(journal);
    log.lines()
        .map(|line| {
            let (step, words) = match read_frame(rest) {
                Ok(frame) => {
                    rest = &rest[frame.consumed..];
                    let came = device.carry_out(&frame.step);
                    (Some(frame.step), words::of_step(&frame.step, &came))
                }
                Err(refusal) => (None, words::of_unreadable(refusal)),
            };
            Frame {
                step,
                words,
                answer: answer(line),
            }
        })
        .collect()
}

/// What stands in a line of the log behind number and letter.
fn answer(line: &str) -> String {
    line.splitn(3, ' ').last().unwrap_or_default().to_string()
}
