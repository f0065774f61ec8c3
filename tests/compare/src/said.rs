//! What a log program must say on standard error, worked out from its input and
//! the log that it must print.

use std::fmt;

use reference::log::INPUT_BYTES;

/// The byte order marks of UTF-8 and of UTF-16 in both orders.
const MARKS: [&[u8]; 3] = [b"\xef\xbb\xbf", b"\xff\xfe", b"\xfe\xff"];

/// All that must be said.
pub fn said(input: &[u8], log: &[u8]) -> String {
    if input.len() > INPUT_BYTES {
        let hint = hint(input);
        return format!(
            "{hint}fetchlog: the input is above {INPUT_BYTES} bytes, no frame is run\n"
        );
    }
    let counts = Counts::of_log(log);
    let hint = if counts.unreadable > 0 {
        hint(input)
    } else {
        ""
    };
    format!("{hint}fetchlog: {counts}\n")
}

/// What is said of an input that may be steps.
fn hint(input: &[u8]) -> &'static str {
    if is_text(input) {
        "fetchlog: the input looks like steps; framewriter makes frames of steps\n"
    } else {
        ""
    }
}

/// The lines of a log, counted.
#[derive(Clone, Copy, Debug, Default, PartialEq, Eq)]
pub struct Counts {
    pub ok: u64,
    pub refused: u64,
    pub unreadable: u64,
}

impl Counts {
    pub fn of_log(log: &[u8]) -> Counts {
        let mut counts = Counts::default();
        for line in String::from_utf8_lossy(log).lines() {
            let fields: Vec<&str> = line.split(' ').collect();
            match fields[1..] {
                ["?", ..] => counts.unreadable += 1,
                [_, "ok", ..] => counts.ok += 1,
                _ => counts.refused += 1,
            }
        }
        counts
    }
}

impl fmt::Display for Counts {
    fn fmt(&self, out: &mut fmt::Formatter<'_>) -> fmt::Result {
        let Counts {
            ok,
            refused,
            unreadable,
        } = self;
        let frames = ok + refused + unreadable;
        let plural = if frames == 1 { "" } else { "s" };
        write!(out, "{frames} frame{plural}, {ok} ok, {refused} refused")?;
        if *unreadable > 0 {
            write!(out, ", {unreadable} unreadable")?;
        }
        Ok(())
    }
}

/// Whether an input may be steps: printable bytes, bytes beyond ASCII, tabs and
/// ends of lines, or anything behind a byte order mark.
pub fn is_text(input: &[u8]) -> bool {
    let written = |byte: &u8| matches!(byte, b' '..=b'~' | 0x80.. | b'\t' | b'\r' | b'\n');
    MARKS.iter().any(|mark| input.starts_with(mark)) || input.iter().all(written)
}
