//! What a frame did, in words.

use reference::book::Span;
use reference::frames::Step;
use reference::refusal::Refusal;

use crate::device::{Done, Part};

/// The words for a frame that could be read.
pub fn of_step(step: &Step, came: &Result<Done, Refusal>) -> String {
    let head = head(step);
    match came {
        Ok(Done::Begun) => head,
        Ok(Done::Fetched(parts, records)) => {
            let parts = joined(parts, ["replayed", "fresh"]);
            format!("{head}: {parts}; {}", held(records))
        }
        Ok(Done::OwnWritten(parts, records)) => {
            let parts = joined(parts, ["over", "new"]);
            format!("{head}: {parts}; {}", held(records))
        }
        Ok(Done::Ended(records, bytes)) => {
            let (records, bytes) = (counted(*records, "record"), counted(*bytes, "byte"));
            format!("{head}: {records}, {bytes}")
        }
        Ok(Done::HostWritten) => format!("{head}: {}", written(step)),
        Err(refusal) => format!("{head}: {}", refused(*refusal)),
    }
}

/// The words for a frame that could not be read.
pub fn of_unreadable(refusal: Refusal) -> String {
    format!("an unreadable frame: {}", refused(refusal))
}

/// Who does what, and where.
fn head(step: &Step) -> String {
    match step {
        Step::Begin { command } => format!("command {command} begins"),
        Step::End { command } => format!("command {command} ends"),
        Step::Fetch {
            command,
            address,
            length,
        } => format!("command {command} fetches {address}+{length}"),
        Step::HostWrite { address, data } => format!("the host writes {address}+{}", data.len()),
        Step::OwnWrite {
            command,
            address,
            data,
        } => format!("command {command} writes {address}+{}", data.len()),
    }
}

/// A number with its noun.
pub fn counted(number: u64, noun: &str) -> String {
    let plural = if number == 1 { "" } else { "s" };
    format!("{number} {noun}{plural}")
}

/// All parts, each behind the word for one that was held or for one that was not.
fn joined(parts: &[Part], words: [&str; 2]) -> String {
    if parts.is_empty() {
        return "nothing".to_string();
    }
    let parts: Vec<String> = parts.iter().map(|each| part(each, words)).collect();
    parts.join(", ")
}

fn part(part: &Part, [held, other]: [&str; 2]) -> String {
    let kind = part.record.map_or(other, |_| held);
    let (start, length) = (part.start, part.bytes.len());
    format!("{kind} {start}+{length} {}", digits(&part.bytes))
}

fn held(records: &[Span]) -> String {
    if records.is_empty() {
        return "no records".to_string();
    }
    let spans = records
        .iter()
        .map(|span| format!(" {}+{}", span.start, span.length));
    format!("records{}", spans.collect::<String>())
}

/// The data of a host write.
fn written(step: &Step) -> String {
    match step {
        Step::HostWrite { data, .. } if !data.is_empty() => digits(data),
        _ => "nothing".to_string(),
    }
}

/// Two digits for each byte.
pub fn digits(bytes: &[u8]) -> String {
    bytes.iter().map(|byte| format!("{byte:02x}")).collect()
}

fn refused(refusal: Refusal) -> String {
    format!("refused ({}): {}", refusal.number(), reason(refusal))
}

/// What is said for a refusal that frames can bring about on the device.
fn reason(refusal: Refusal) -> &'static str {
    match refusal {
        Refusal::FrameTooShort => "the frame ends before its fifth byte",
        Refusal::KindNotAllowed => "no kind of step has this number",
        Refusal::MustBeZero => "a field or bit that must be zero is not",
        Refusal::LengthTooLong => "the length is above 4096",
        Refusal::DataMismatch => "data and length do not agree",
        Refusal::PastWindow => "the span ends beyond the window",
        Refusal::NotOpen => "the command is not open",
        Refusal::AlreadyOpen => "the command is open already",
        Refusal::TooManyBytes => "the command would hold more than 4096 bytes",
        Refusal::TooManyRecords => "the command would have more than 64 records",
        _ => panic!("no frame is refused with {}", refusal.number()),
    }
}
