//! A journal as steps, one a line, with expectations and lines without a step.

use reference::frames::Step;
use sampling::generator::Generator;

use crate::expectations::{self, Expectation};
use crate::journal::Frame;
use crate::words::digits;

/// Behind so many bytes no long expectation is added, so that a script stays
/// below the 1,048,576 bytes that are read.
const LONG: usize = 500_000;

/// A line with a step.
pub struct Line {
    /// Counted from 1.
    pub number: usize,
    /// The step and its expectation, without a comment.
    pub text: String,
    pub expectation: Option<Expectation>,
}

/// The text of the steps, and the line of each frame that can be read.
pub fn script(frames: &[Frame], seed: u64) -> (String, Vec<Line>) {
    let mut numbers = Generator::new(seed);
    let mut script = String::new();
    let mut lines: Vec<Line> = vec![];
    let mut number = 0;
    for (step, answer) in frames.iter().filter_map(readable) {
        if numbers.one_in(10) {
            script += "# X = 00\n \r\n";
            number += 2;
        }
        number += 1;
        let expectation = if numbers.one_in(3) && (script.len() < LONG || answer.len() < 100) {
            let is_fetch = step.letter() == 'F';
            Some(expectations::any(&mut numbers, answer, is_fetch))
        } else {
            None
        };
        let text = line(step, expectation.as_ref());
        let comment = ["", "", " # = zz", "\t\r"][numbers.below(4) as usize];
        script += &format!("{text}{comment}\n");
        lines.push(Line {
            number,
            text,
            expectation,
        });
    }
    (script, lines)
}

fn readable<'a>(frame: &'a Frame) -> Option<(&'a Step<'a>, &'a str)> {
    frame.step.as_ref().map(|step| (step, &frame.answer[..]))
}

/// The line of a step, with what is expected of it.
fn line(step: &Step, expectation: Option<&Expectation>) -> String {
    let letter = step.letter();
    let text = match step {
        Step::Begin { command } | Step::End { command } => format!("{letter} {command}"),
        Step::Fetch {
            command,
            address,
            length,
        } => format!("{letter} {command} {address} {length}"),
        Step::HostWrite { address, data } => format!("{letter} {address}{}", field(data)),
        Step::OwnWrite {
            command,
            address,
            data,
        } => format!("{letter} {command} {address}{}", field(data)),
    };
    match expectation {
        Some(expectation) => format!("{text} = {}", expectation.text),
        None => text,
    }
}

/// Data as the last field of a line, which is left out if there are none.
fn field(data: &[u8]) -> String {
    if data.is_empty() {
        return String::new();
    }
    format!(" {}", digits(data))
}
