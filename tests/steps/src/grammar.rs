//! What a line says, read by the grammar of steps:
//!
//! ```text
//! LINE     = [STEP [= EXPECTED]] [# comment]
//! STEP     = B COMMAND | F COMMAND ADDRESS LENGTH | E COMMAND
//!          | H ADDRESS [DATA] | W COMMAND ADDRESS [DATA]
//! EXPECTED = any text but blanks
//! ```
//!
//! Blanks are space, tab and carriage return. A number is decimal digits; data
//! are hexadecimal digits of either case, two a byte, or `-` for none. Of
//! several faults in a line the first from the left is named.

use crate::step::{Step, LETTERS};

pub const LETTER: &str = "no kind of step has this letter";
pub const MISSING: &str = "a field is missing";
pub const MORE: &str = "a field too many";
pub const NUMBER: &str = "not a decimal number";
pub const HEX: &str = "not hexadecimal";
pub const ODD: &str = "an odd number of hexadecimal digits";
pub const MARK: &str = "a byte order mark stands before the step";
pub const NOTHING: &str = "nothing stands behind =";
pub const NO_STEP: &str = "an expectation without a step";

/// The byte order marks of UTF-8 and of UTF-16 in both orders.
const MARKS: [&[u8]; 3] = [b"\xef\xbb\xbf", b"\xff\xfe", b"\xfe\xff"];

/// What becomes of a line.
#[derive(Debug, PartialEq, Eq)]
pub enum Line {
    /// It has no step.
    Blank,
    /// The frame of its step.
    Frame(Vec<u8>),
    /// Why it is bad.
    Bad(String),
}

/// Reads a line, which is given without its newline.
pub fn read(line: &[u8]) -> Line {
    let step = match step_of(line) {
        Ok(Some(step)) => step,
        Ok(None) => return Line::Blank,
        Err(reason) => return Line::Bad(reason.to_string()),
    };
    match step.frame() {
        Ok(frame) => Line::Frame(frame),
        Err(number) => Line::Bad(refusal(number)),
    }
}

/// The words for a refusal that the writer of frames can give, and its number.
pub fn refusal(number: u8) -> String {
    let words = match number {
        4 => "the length is above 4096",
        6 => "the command is above 7",
        11 => "the address is above 65535",
        _ => panic!("the writer refuses no line with {number}"),
    };
    format!("{words} ({number})")
}

/// The step of a line, if it has one, or the fault.
fn step_of(line: &[u8]) -> Result<Option<Step>, &'static str> {
    if MARKS.iter().any(|mark| line.starts_with(mark)) {
        return Err(MARK);
    }
    let (text, _) = cut(line, b'#');
    let (step, expected) = cut(text, b'=');
    let fields = words(step);
    let Some((letter, fields)) = fields.split_first() else {
        return expected.map_or(Ok(None), |_| Err(NO_STEP));
    };
    let step = Fields(fields).step(letter)?;
    match expected {
        Some(expected) if words(expected).is_empty() => Err(NOTHING),
        _ => Ok(Some(step)),
    }
}

/// What stands before the first such byte, and what stands behind it.
fn cut(text: &[u8], byte: u8) -> (&[u8], Option<&[u8]>) {
    let mut parts = text.splitn(2, |other| *other == byte);
    (parts.next().unwrap_or_default(), parts.next())
}

/// What stands between blanks.
fn words(text: &[u8]) -> Vec<&[u8]> {
    text.split(|byte| b" \t\r".contains(byte))
        .filter(|word| !word.is_empty())
        .collect()
}

/// The words behind the letter that are not read yet.
struct Fields<'a>(&'a [&'a [u8]]);

impl<'a> Fields<'a> {
    /// The step of a kind, for which all words are needed.
    fn step(mut self, letter: &[u8]) -> Result<Step, &'static str> {
        let kind = LETTERS
            .iter()
            .position(|known| known.to_string().as_bytes() == letter)
            .ok_or(LETTER)?;
        let mut step = Step {
            kind: kind as u64,
            ..Step::default()
        };
        match LETTERS[kind] {
            'F' => {
                step.command = self.number()?;
                step.address = self.number()?;
                step.length = self.number()?;
            }
            'H' => {
                step.address = self.number()?;
                step.data = self.data()?;
            }
            'W' => {
                step.command = self.number()?;
                step.address = self.number()?;
                step.data = self.data()?;
            }
            _ => step.command = self.number()?,
        }
        match self.next() {
            None => Ok(step),
            Some(_) => Err(MORE),
        }
    }

    fn next(&mut self) -> Option<&'a [u8]> {
        let (first, rest) = self.0.split_first()?;
        self.0 = rest;
        Some(first)
    }

    /// A number; one that is too large for 64 bits is the largest of them.
    fn number(&mut self) -> Result<u64, &'static str> {
        let digits = self.next().ok_or(MISSING)?;
        if !digits.iter().all(u8::is_ascii_digit) {
            return Err(NUMBER);
        }
        let text = String::from_utf8_lossy(digits);
        Ok(text.parse().unwrap_or(u64::MAX))
    }

    /// Data, which may be left out.
    fn data(&mut self) -> Result<Vec<u8>, &'static str> {
        let digits = self.next().unwrap_or(b"-");
        if digits == b"-" {
            return Ok(vec![]);
        }
        if !digits.iter().all(u8::is_ascii_hexdigit) {
            return Err(HEX);
        }
        if digits.len() % 2 == 1 {
            return Err(ODD);
        }
        let text = String::from_utf8_lossy(digits);
        let pairs = (0..text.len())
            .step_by(2)
            .map(|place| &text[place..place + 2]);
        Ok(pairs
            .map(|pair| u8::from_str_radix(pair, 16).expect("two digits"))
            .collect())
    }
}
