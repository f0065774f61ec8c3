//! All that the program must write for an input.

use compare::said::is_text;

use crate::grammar::{self, Line};
use crate::quoted::quoted;

/// The longest input that is read.
pub const LONGEST: usize = 1 << 20;

/// The most bytes of frames that `fetchlog` takes.
const JOURNAL: usize = 32_768;

/// The frames of the steps if no line is bad, and the text on standard error.
pub fn expected(input: &[u8]) -> (Vec<u8>, String) {
    if input.len() > LONGEST {
        let text = format!("framewriter: the input is above {LONGEST} bytes, nothing is written\n");
        return (vec![], text);
    }
    let (mut frames, mut count) = (vec![], 0);
    let mut complaints = vec![];
    for (line, number) in lines(input).zip(1..) {
        match grammar::read(line) {
            Line::Blank => (),
            Line::Frame(frame) => {
                frames.extend(frame);
                count += 1;
            }
            Line::Bad(reason) => complaints.push(complaint(number, &reason, line)),
        }
    }
    if complaints.is_empty() {
        let text = sum(count, frames.len());
        return (frames, text);
    }
    (
        vec![],
        complaints.concat() + &bad_lines(input, complaints.len()),
    )
}

/// What stands between newlines; behind the last of them only if something does.
fn lines(input: &[u8]) -> impl Iterator<Item = &[u8]> {
    input
        .split_inclusive(|byte| *byte == b'\n')
        .map(|line| line.strip_suffix(b"\n").unwrap_or(line))
}

/// What is said of a bad line.
pub fn complaint(number: usize, reason: &str, line: &[u8]) -> String {
    format!("framewriter: line {number}: {reason}: {}\n", quoted(line))
}

/// The last line if so many lines of the input are bad, and the line before it
/// if the input is no text.
pub fn bad_lines(input: &[u8], count: usize) -> String {
    let hint = if is_text(input) {
        ""
    } else {
        "framewriter: the input looks like frames; fetchlog runs frames\n"
    };
    let lines = if count == 1 { "line" } else { "lines" };
    format!("{hint}framewriter: {count} bad {lines}, nothing is written\n")
}

/// The last line if there are so many frames and bytes of them, and the line
/// before it if they are too many for `fetchlog`.
fn sum(frames: usize, bytes: usize) -> String {
    let warning = if bytes > JOURNAL {
        format!("framewriter: more than {JOURNAL} bytes, which fetchlog refuses\n")
    } else {
        String::new()
    };
    let plural = if frames == 1 { "" } else { "s" };
    format!("{warning}framewriter: {frames} frame{plural}, {bytes} bytes\n")
}
