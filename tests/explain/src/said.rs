//! All that the program must print and say.

use compare::said::{is_text, Counts};
use steps::quoted::quoted;

use crate::journal::Frame;
use crate::script::Line;
use crate::words::counted;

/// Standard output and standard error.
#[derive(Debug, PartialEq, Eq)]
pub struct Said {
    pub out: String,
    pub errors: String,
}

/// What must be said of a journal that is given as frames.
pub fn of_frames(journal: &[u8], frames: &[Frame]) -> Said {
    let numbered = frames.iter().zip(1..);
    let counts = counts(frames.iter());
    let hint = if counts.unreadable > 0 && is_text(journal) {
        "explain: the input looks like steps; leave --frames out\n"
    } else {
        ""
    };
    Said {
        out: numbered
            .map(|(frame, number)| format!("{number} {}\n", frame.words))
            .collect(),
        errors: format!("{hint}explain: {counts}\n"),
    }
}

/// What must be said of its frames that can be read, given as steps.
pub fn of_steps(frames: &[Frame], lines: &[Line]) -> Said {
    let frames = frames.iter().filter(|frame| frame.step.is_some());
    let counts = counts(frames.clone());
    let mut said = Said {
        out: String::new(),
        errors: String::new(),
    };
    let (mut held, mut failed) = (0, 0);
    for ((frame, line), number) in frames.zip(lines).zip(1..) {
        let place = format!("{}: {}", line.number, quoted(line.text.as_bytes()));
        said.out += &format!("{number} ({place}) {}\n", frame.words);
        match &line.expectation {
            Some(expectation) if expectation.holds => held += 1,
            Some(expectation) => {
                failed += 1;
                said.errors += &complaint(line.number, &expectation.text, &frame.answer);
            }
            None => (),
        }
    }
    said.errors += &match held + failed {
        0 => format!("explain: {counts}\n"),
        _ => {
            let held = counted(held, "expectation");
            format!("explain: {counts}, {held} held, {failed} failed\n")
        }
    };
    said
}

fn complaint(number: usize, expected: &str, answer: &str) -> String {
    let [expected, answer] = [expected, answer].map(|text| quoted(text.as_bytes()));
    format!("explain: line {number}: expected {expected}, but {answer}\n")
}

fn counts<'a>(frames: impl Iterator<Item = &'a Frame<'a>>) -> Counts {
    let mut counts = Counts::default();
    for frame in frames {
        match frame.step {
            None => counts.unreadable += 1,
            Some(_) if frame.answer.starts_with("ok") => counts.ok += 1,
            Some(_) => counts.refused += 1,
        }
    }
    counts
}
