//! The part of a line that is not read yet, and what can stand at its front.

use crate::frame::Span;

/// Why a line is none of an explanation: what should stand there, and the
/// text that does.
#[derive(Clone, Debug, PartialEq, Eq)]
pub struct Fault {
    pub expected: &'static str,
    pub found: String,
}

/// What was read, or why it could not be.
pub type Parsed<T> = Result<T, Fault>;

/// The part of a line that is not read yet.
pub struct Rest<'a>(pub &'a str);

impl Rest<'_> {
    /// Reads past a text if it stands there.
    pub fn skip(&mut self, text: &str) -> bool {
        let behind = self.0.strip_prefix(text);
        self.0 = behind.unwrap_or(self.0);
        behind.is_some()
    }

    /// Reads past a text that must stand there.
    pub fn take(&mut self, text: &str, expected: &'static str) -> Parsed<()> {
        if self.skip(text) {
            return Ok(());
        }
        self.fault(expected)
    }

    /// Reads past a word that has an `s` unless there is one of it.
    pub fn word(&mut self, number: u32, word: &str) -> Parsed<()> {
        self.take(word, "`record` or `byte`")?;
        if self.skip("s") == (number != 1) {
            return Ok(());
        }
        self.fault("the singular for one, the plural for more")
    }

    /// Decimal digits, without zeroes in front, of a number that fits.
    pub fn number(&mut self, expected: &'static str) -> Parsed<u32> {
        let other = self.0.find(|character: char| !character.is_ascii_digit());
        let (digits, behind) = self.0.split_at(other.unwrap_or(self.0.len()));
        match digits.parse() {
            Ok(number) if digits == "0" || !digits.starts_with('0') => {
                self.0 = behind;
                Ok(number)
            }
            _ => self.fault(expected),
        }
    }

    /// A span that a frame can have: 16 bits of address, 4,096 bytes at most.
    pub fn span(&mut self) -> Parsed<Span> {
        let expected = "a span, START+LENGTH, at 65535 or below and of 4096 bytes at most";
        let before = self.0;
        let start = self.number(expected)?;
        self.take("+", expected)?;
        let length = self.number(expected)?;
        if start > 65_535 || length > 4_096 {
            self.0 = before;
            return self.fault(expected);
        }
        Ok(Span { start, length })
    }

    /// So many bytes, two lower-case digits each, and no digit behind them.
    pub fn bytes(&mut self, length: u32) -> Parsed<Vec<u8>> {
        let is_digit = |character: char| matches!(character, '0'..='9' | 'a'..='f');
        let other = self.0.find(|character| !is_digit(character));
        let (digits, behind) = self.0.split_at(other.unwrap_or(self.0.len()));
        if digits.len() != 2 * length as usize {
            return self.fault("the bytes of the span, in hexadecimal");
        }
        self.0 = behind;
        let pairs = digits.as_bytes().chunks(2);
        Ok(pairs
            .map(|pair| digit(pair[0]) << 4 | digit(pair[1]))
            .collect())
    }

    /// Nothing more may stand there.
    pub fn end(&self) -> Parsed<()> {
        if self.0.is_empty() {
            return Ok(());
        }
        self.fault("the end of the line")
    }

    /// The fault at this place.
    pub fn fault<T>(&self, expected: &'static str) -> Parsed<T> {
        let found = self.0.to_string();
        Err(Fault { expected, found })
    }
}

/// The value of a hexadecimal digit.
fn digit(character: u8) -> u8 {
    match character {
        b'0'..=b'9' => character - b'0',
        _ => character - b'a' + 10,
    }
}
