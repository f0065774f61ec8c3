//! A whole explanation, read line by line.

use std::fmt::{self, Display, Formatter};
use std::io::{self, BufRead};

use crate::frame::{Answer, Asked, Frame};
use crate::parse;
use crate::rest::{Fault, Parsed, Rest};

/// The most frames that are drawn.
pub const MOST_FRAMES: usize = 200;

/// What is drawn of a run: its first frames, and the counts over all.
#[derive(Debug, Default)]
pub struct Run {
    pub frames: Vec<Frame>,
    pub ok: u32,
    pub refused: u32,
    /// Whether a frame that cannot be read ended the run.
    pub unreadable: bool,
    /// The number of the last frame.
    last: u32,
}

impl Run {
    /// How many frames there are.
    pub fn total(&self) -> u32 {
        self.ok + self.refused + u32::from(self.unreadable)
    }

    /// How many frames there are that are not drawn.
    pub fn left_out(&self) -> u32 {
        self.total() - self.frames.len() as u32
    }

    /// Takes in a line with its newline. A line has printable ASCII characters
    /// alone, the number of its frame is above the one before, and that of an
    /// unreadable frame is the last.
    fn take(&mut self, line: &[u8]) -> Parsed<()> {
        let text = String::from_utf8_lossy(line);
        let Some(text) = text.strip_suffix('\n') else {
            return Rest(&text).fault("a line that a newline ends");
        };
        if let Some(place) = text.find(|character| !(' '..='~').contains(&character)) {
            return Rest(&text[place..]).fault("printable ASCII characters");
        }
        if self.unreadable {
            return Rest(text).fault("no line behind that of an unreadable frame");
        }
        let frame = parse::frame(text)?;
        if frame.number <= self.last {
            return Rest(text).fault("a number above that of the frame before");
        }
        self.last = frame.number;
        self.add(frame);
        Ok(())
    }

    /// Counts a frame, and keeps it if it is one of the first.
    fn add(&mut self, frame: Frame) {
        match (frame.asked, &frame.answer) {
            (Asked::Unreadable, _) => self.unreadable = true,
            (_, Answer::Refused { .. }) => self.refused += 1,
            _ => self.ok += 1,
        }
        if self.frames.len() < MOST_FRAMES {
            self.frames.push(frame);
        }
    }
}

/// Why an input is no explanation.
#[derive(Debug)]
pub enum Bad {
    Unread(io::Error),
    Line(u64, Fault),
    Empty,
}

impl Display for Bad {
    fn fmt(&self, to: &mut Formatter) -> fmt::Result {
        match self {
            Bad::Unread(error) => write!(to, "the input cannot be read: {error}"),
            Bad::Line(line, fault) => {
                let (expected, found) = (fault.expected, quoted(&fault.found));
                write!(to, "line {line}: expected {expected}, but there is {found}")
            }
            Bad::Empty => write!(to, "the input has no line, so there is nothing to draw"),
        }
    }
}

/// Reads an explanation to its end. Of long ones no more is kept than is
/// drawn.
pub fn read(mut input: impl BufRead) -> Result<Run, Bad> {
    let mut run = Run::default();
    let mut line = vec![];
    for place in 1.. {
        line.clear();
        if input.read_until(b'\n', &mut line).map_err(Bad::Unread)? == 0 {
            break;
        }
        run.take(&line).map_err(|fault| Bad::Line(place, fault))?;
    }
    if run.frames.is_empty() {
        return Err(Bad::Empty);
    }
    Ok(run)
}

/// The first 60 characters of a text in quotes, with escapes for what cannot
/// be seen.
fn quoted(text: &str) -> String {
    let first: String = text.chars().take(60).collect();
    let more = if first.len() < text.len() { "..." } else { "" };
    match text {
        "" => "nothing more".to_string(),
        _ => format!("{first:?}{more}"),
    }
}

#[cfg(test)]
mod tests {
    use super::*;

    fn message(input: &[u8]) -> String {
        read(input).unwrap_err().to_string()
    }

    #[test]
    fn the_frames_are_counted_and_the_first_are_kept() {
        let line = |number: usize| match number % 3 {
            0 => format!("{number} command 3 begins\n"),
            1 => format!("{number} command 3 ends: 1 record, 1 byte\n"),
            _ => format!("{number} command 3 ends: refused (21): the command is not open\n"),
        };
        let text: String = (1..=6_553).map(line).collect();
        let run = read(text.as_bytes()).unwrap();
        assert_eq!((run.ok, run.refused), (4_369, 2_184));
        assert_eq!(run.frames.len(), MOST_FRAMES);
        assert_eq!(run.left_out(), 6_353);
        assert_eq!(run.frames[MOST_FRAMES - 1].number, 200);
    }

    #[test]
    fn a_bad_line_is_told_with_its_number() {
        let told = message(b"1 command 3 begins\n2 command 3 stops\n3 command 3 begins\n");
        let expected = "line 2: expected ` begins`, ` fetches`, ` ends` or ` writes`, \
                        but there is \" stops\"";
        assert_eq!(told, expected);
    }

    #[test]
    fn what_is_told_of_a_line_can_be_printed() {
        let told = message(b"1 command 3 begins\r\n");
        assert_eq!(
            told,
            r#"line 1: expected printable ASCII characters, but there is "\r""#
        );
        let told = message(b"1 (5: \x1b\xff) command 3 begins\n");
        assert!(
            told.ends_with("there is \"\\u{1b}\u{fffd}) command 3 begins\""),
            "{told}"
        );
        let told = message(&[[b'x'; 61].as_slice(), b"\n"].concat());
        assert!(told.ends_with("xx\"..."), "{told}");
        let told = message(b"1 command 3 ends\n");
        assert!(told.ends_with("but there is nothing more"), "{told}");
    }

    #[test]
    fn every_line_ends_with_a_newline() {
        let told = message(b"1 command 3 begins\n2 command 3 fetches 0+0: nothing; records 64+1");
        assert!(told.starts_with("line 2: expected a line that a newline ends"));
    }

    #[test]
    fn the_numbers_of_frames_rise() {
        let told = message(b"1 command 3 begins\n1 command 3 begins\n");
        assert!(told.starts_with("line 2: expected a number above that of the frame before"));
        let told = message(b"0 command 3 begins\n");
        assert!(told.starts_with("line 1: expected a number above"));
        assert!(read(b"7 command 3 begins\n9 command 3 begins\n".as_slice()).is_ok());
    }

    #[test]
    fn an_unreadable_frame_is_the_last() {
        let lines = "1 command 3 begins\n2 an unreadable frame: refused (3): no\n";
        let run = read(lines.as_bytes()).unwrap();
        assert_eq!((run.ok, run.refused, run.unreadable), (1, 0, true));
        assert_eq!((run.total(), run.left_out()), (2, 0));
        let told = message(format!("{lines}3 command 3 begins\n").as_bytes());
        assert!(told.starts_with("line 3: expected no line behind that of an unreadable frame"));
    }

    #[test]
    fn an_empty_input_and_an_empty_line_are_refused() {
        assert!(matches!(read(b"".as_slice()), Err(Bad::Empty)));
        assert!(message(b"\n").starts_with("line 1: expected the number of a frame"));
    }
}
