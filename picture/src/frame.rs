//! What a line of an explanation says, and the line itself, printed anew.

use std::fmt::{self, Display, Formatter};

/// A run of addresses: `length` of them, from `start` on.
#[derive(Clone, Copy, Debug, PartialEq, Eq)]
pub struct Span {
    pub start: u32,
    pub length: u32,
}

impl Span {
    /// The address right behind the span.
    pub fn end(self) -> u32 {
        self.start + self.length
    }
}

/// The line of the steps that a frame was made of: its number and its text.
#[derive(Clone, Debug, PartialEq, Eq)]
pub struct Step {
    pub line: u32,
    pub text: String,
}

/// What a frame asks for.
#[derive(Clone, Copy, Debug, PartialEq, Eq)]
pub enum Asked {
    Begin(u32),
    Fetch(u32, Span),
    End(u32),
    HostWrite(Span),
    OwnWrite(u32, Span),
    /// It cannot be told from a frame that cannot be read.
    Unreadable,
}

impl Asked {
    /// The addresses that are asked for, if the kind of frame has some.
    pub fn span(self) -> Option<Span> {
        match self {
            Asked::Fetch(_, span) | Asked::HostWrite(span) | Asked::OwnWrite(_, span) => Some(span),
            Asked::Begin(_) | Asked::End(_) | Asked::Unreadable => None,
        }
    }

    /// Who does what, without the span.
    pub fn deed(self) -> String {
        match self {
            Asked::Begin(command) => format!("command {command} begins"),
            Asked::Fetch(command, _) => format!("command {command} fetches"),
            Asked::End(command) => format!("command {command} ends"),
            Asked::HostWrite(_) => "the host writes".to_string(),
            Asked::OwnWrite(command, _) => format!("command {command} writes"),
            Asked::Unreadable => "an unreadable frame".to_string(),
        }
    }
}

/// What became of bytes: those of a fetch came from the window or from what the
/// command holds, and those of an own write came over what it held or not.
#[derive(Clone, Copy, Debug, PartialEq, Eq)]
pub enum Fate {
    Fresh,
    Replayed,
    New,
    Over,
}

impl Fate {
    /// What a line says for it.
    pub fn word(self) -> &'static str {
        match self {
            Fate::Fresh => "fresh",
            Fate::Replayed => "replayed",
            Fate::New => "new",
            Fate::Over => "over",
        }
    }
}

/// Bytes of a fetch or an own write that had one fate, with their addresses.
#[derive(Clone, Debug, PartialEq, Eq)]
pub struct Part {
    pub fate: Fate,
    pub span: Span,
    pub bytes: Vec<u8>,
}

/// What came of a frame.
#[derive(Clone, Debug, PartialEq, Eq)]
pub enum Answer {
    Begun,
    /// The parts of the span of a fetch or an own write by ascending address, and
    /// all that the command holds from then on.
    Held {
        parts: Vec<Part>,
        records: Vec<Span>,
    },
    /// How many records and bytes the command held.
    Ended {
        records: u32,
        bytes: u32,
    },
    /// What the host has written.
    Written(Vec<u8>),
    Refused {
        number: u32,
        reason: String,
    },
}

/// A line of an explanation.
#[derive(Clone, Debug, PartialEq, Eq)]
pub struct Frame {
    pub number: u32,
    pub step: Option<Step>,
    pub asked: Asked,
    pub answer: Answer,
}

impl Display for Span {
    fn fmt(&self, to: &mut Formatter) -> fmt::Result {
        write!(to, "{}+{}", self.start, self.length)
    }
}

impl Display for Part {
    fn fmt(&self, to: &mut Formatter) -> fmt::Result {
        let word = self.fate.word();
        write!(to, "{word} {} {}", self.span, hexadecimal(&self.bytes))
    }
}

impl Display for Answer {
    fn fmt(&self, to: &mut Formatter) -> fmt::Result {
        match self {
            Answer::Begun => Ok(()),
            Answer::Held { parts, records } => {
                let parts = list(parts, ", ").unwrap_or("nothing".to_string());
                match list(records, " ") {
                    Some(records) => write!(to, "{parts}; records {records}"),
                    None => write!(to, "{parts}; no records"),
                }
            }
            Answer::Ended { records, bytes } => {
                let (records, bytes) = (counted(*records, "record"), counted(*bytes, "byte"));
                write!(to, "{records}, {bytes}")
            }
            Answer::Written(bytes) if bytes.is_empty() => write!(to, "nothing"),
            Answer::Written(bytes) => write!(to, "{}", hexadecimal(bytes)),
            Answer::Refused { number, reason } => write!(to, "refused ({number}): {reason}"),
        }
    }
}

impl Display for Frame {
    fn fmt(&self, to: &mut Formatter) -> fmt::Result {
        write!(to, "{} ", self.number)?;
        if let Some(step) = &self.step {
            write!(to, "({}: {}) ", step.line, step.text)?;
        }
        write!(to, "{}", self.asked.deed())?;
        if let Some(span) = self.asked.span() {
            write!(to, " {span}")?;
        }
        match &self.answer {
            Answer::Begun => Ok(()),
            answer => write!(to, ": {answer}"),
        }
    }
}

/// A number of things, with the word for them: `1 byte`, `2 bytes`.
pub fn counted(number: u32, word: &str) -> String {
    let plural = if number == 1 { "" } else { "s" };
    format!("{number} {word}{plural}")
}

/// Things one behind the other, or none if there is none.
fn list<T: Display>(things: &[T], between: &str) -> Option<String> {
    let things: Vec<String> = things.iter().map(T::to_string).collect();
    (!things.is_empty()).then(|| things.join(between))
}

/// Two lower-case digits for each byte.
fn hexadecimal(bytes: &[u8]) -> String {
    bytes.iter().map(|byte| format!("{byte:02x}")).collect()
}
