//! The first line in which an output is not as it must be.

use std::fmt;

/// How many bytes of a line are shown on each side of the first wrong one.
const AROUND: usize = 40;

/// Two lines that should be equal, each with its newline. An output that has
/// ended before has none.
pub struct Difference<'a> {
    /// Counted from 1.
    pub line: usize,
    /// How many bytes at the front of both lines are equal.
    pub equal: usize,
    pub expected: Option<&'a [u8]>,
    pub found: Option<&'a [u8]>,
}

/// The first difference of two outputs, if they are not the same bytes.
pub fn first<'a>(expected: &'a [u8], found: &'a [u8]) -> Option<Difference<'a>> {
    let mut expected_lines = lines(expected);
    let mut found_lines = lines(found);
    let mut line = 1;
    loop {
        let (expected, found) = (expected_lines.next(), found_lines.next());
        if expected != found {
            return Some(Difference {
                line,
                equal: equal_front(expected.unwrap_or(&[]), found.unwrap_or(&[])),
                expected,
                found,
            });
        }
        expected?;
        line += 1;
    }
}

/// The lines with their newlines; the last one may lack it.
fn lines(output: &[u8]) -> impl Iterator<Item = &[u8]> {
    output.split_inclusive(|byte| *byte == b'\n')
}

fn equal_front(one: &[u8], other: &[u8]) -> usize {
    one.iter().zip(other).take_while(|(a, b)| a == b).count()
}

impl fmt::Display for Difference<'_> {
    fn fmt(&self, out: &mut fmt::Formatter<'_>) -> fmt::Result {
        writeln!(out, "  line {}, column {}", self.line, self.equal + 1)?;
        writeln!(out, "  expected: {}", shown(self.expected, self.equal))?;
        writeln!(out, "  found:    {}", shown(self.found, self.equal))
    }
}

/// The line about a place, with dots for what is left out and with its newline
/// made visible.
fn shown(line: Option<&[u8]>, place: usize) -> String {
    let Some(line) = line else {
        return "(the output has ended)".to_string();
    };
    let from = place.saturating_sub(AROUND).min(line.len());
    let to = (place + AROUND).min(line.len());
    let before = if from > 0 { "..." } else { "" };
    let after = if to < line.len() { "..." } else { "" };
    format!("{before}{}{after}", line[from..to].escape_ascii())
}
