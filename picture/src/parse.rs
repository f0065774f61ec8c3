//! A line of an explanation, read.

use crate::frame::{Answer, Asked, Fate, Frame, Part, Span, Step};
use crate::rest::{Parsed, Rest};

/// The frame that a line tells of; the line is given without its newline.
pub fn frame(line: &str) -> Parsed<Frame> {
    let mut rest = Rest(line);
    let number = rest.number("the number of a frame")?;
    rest.take(" ", "a blank behind the number of the frame")?;
    let step = step(&mut rest)?;
    let asked = asked(&mut rest)?;
    let answer = answer(&mut rest, asked)?;
    rest.end()?;
    Ok(Frame {
        number,
        step,
        asked,
        answer,
    })
}

/// The step in brackets, if there is one. Its text may have any character in
/// it; it ends at the last `) `, which the words of no frame have in them.
fn step(rest: &mut Rest) -> Parsed<Option<Step>> {
    if !rest.skip("(") {
        return Ok(None);
    }
    let line = rest.number("the number of the line of a step")?;
    rest.take(": ", "`: ` behind the number of the line of a step")?;
    let Some((text, words)) = rest.0.rsplit_once(") ") else {
        return rest.fault("a step that `) ` ends");
    };
    let text = text.to_string();
    *rest = Rest(words);
    Ok(Some(Step { line, text }))
}

/// Who does what, with its span.
fn asked(rest: &mut Rest) -> Parsed<Asked> {
    if rest.skip("an unreadable frame") {
        return Ok(Asked::Unreadable);
    }
    if rest.skip("the host writes ") {
        return Ok(Asked::HostWrite(rest.span()?));
    }
    rest.take("command ", "what a frame does, in words")?;
    let command = rest.number("the number of a command")?;
    if rest.skip(" begins") {
        Ok(Asked::Begin(command))
    } else if rest.skip(" ends") {
        Ok(Asked::End(command))
    } else if rest.skip(" fetches ") {
        Ok(Asked::Fetch(command, rest.span()?))
    } else if rest.skip(" writes ") {
        Ok(Asked::OwnWrite(command, rest.span()?))
    } else {
        rest.fault("` begins`, ` fetches`, ` ends` or ` writes`")
    }
}

/// What stands behind the span: the answer that this kind of frame can have,
/// or a refusal.
fn answer(rest: &mut Rest, asked: Asked) -> Parsed<Answer> {
    if matches!(asked, Asked::Begin(_)) && rest.0.is_empty() {
        return Ok(Answer::Begun);
    }
    rest.take(": ", "`: ` and what came of the frame")?;
    if rest.skip("refused (") {
        return refused(rest);
    }
    match asked {
        Asked::Fetch(_, span) => held(rest, span, [Fate::Fresh, Fate::Replayed]),
        Asked::OwnWrite(_, span) => held(rest, span, [Fate::New, Fate::Over]),
        Asked::End(_) => ended(rest),
        Asked::HostWrite(span) if span.length > 0 => Ok(Answer::Written(rest.bytes(span.length)?)),
        Asked::HostWrite(_) => {
            rest.take("nothing", "`nothing`, as the span has no byte")?;
            Ok(Answer::Written(vec![]))
        }
        Asked::Begin(_) | Asked::Unreadable => rest.fault("a refusal"),
    }
}

/// The number of a refusal and all that stands behind it.
fn refused(rest: &mut Rest) -> Parsed<Answer> {
    let number = rest.number("the number of a refusal")?;
    rest.take("): ", "`): ` and the reason of the refusal")?;
    if rest.0.is_empty() {
        return rest.fault("the reason of the refusal");
    }
    let reason = rest.0.to_string();
    *rest = Rest("");
    Ok(Answer::Refused { number, reason })
}

/// The parts of a fetch or an own write, which make up its span and have one of
/// two fates, and the records.
fn held(rest: &mut Rest, span: Span, fates: [Fate; 2]) -> Parsed<Answer> {
    let mut parts = vec![];
    if span.length == 0 {
        rest.take("nothing", "`nothing`, as the span has no byte")?;
    }
    let mut start = span.start;
    while start < span.end() {
        if !parts.is_empty() {
            rest.take(", ", "`, ` and the rest of the span")?;
        }
        let part = part(rest, start, span.end(), fates)?;
        start = part.span.end();
        parts.push(part);
    }
    rest.take("; ", "`; ` and the records")?;
    let records = records(rest)?;
    Ok(Answer::Held { parts, records })
}

/// A part that begins at an address and ends at another or before it.
fn part(rest: &mut Rest, start: u32, end: u32, fates: [Fate; 2]) -> Parsed<Part> {
    let fate = fate(rest, fates)?;
    let before = rest.0;
    let span = rest.span()?;
    if span.start != start || span.length == 0 || span.end() > end {
        *rest = Rest(before);
        return rest.fault("the next part of the span");
    }
    rest.take(" ", "a blank and the bytes")?;
    let bytes = rest.bytes(span.length)?;
    Ok(Part { fate, span, bytes })
}

/// The word for one of two fates, and a blank.
fn fate(rest: &mut Rest, fates: [Fate; 2]) -> Parsed<Fate> {
    let said = |fate: &Fate| rest.skip(&format!("{} ", fate.word()));
    match fates.into_iter().find(said) {
        Some(fate) => Ok(fate),
        None if fates.contains(&Fate::New) => rest.fault("`new` or `over`"),
        None => rest.fault("`fresh` or `replayed`"),
    }
}

/// The records, each with a blank before it.
fn records(rest: &mut Rest) -> Parsed<Vec<Span>> {
    if rest.skip("no records") {
        return Ok(vec![]);
    }
    rest.take("records ", "`records` or `no records`")?;
    let mut records = vec![rest.span()?];
    while rest.skip(" ") {
        records.push(rest.span()?);
    }
    Ok(records)
}

/// What a command held at its end.
fn ended(rest: &mut Rest) -> Parsed<Answer> {
    let records = rest.number("the number of records")?;
    rest.word(records, " record")?;
    rest.take(", ", "`, ` and the number of bytes")?;
    let bytes = rest.number("the number of bytes")?;
    rest.word(bytes, " byte")?;
    Ok(Answer::Ended { records, bytes })
}

#[cfg(test)]
mod tests {
    use super::*;

    /// All forms that a line has.
    const LINES: [&str; 27] = [
        "1 (5: H 64 040011002200330044) the host writes 64+9: 040011002200330044",
        "2 (8: B 3) command 3 begins",
        "3 (11: F 3 64 1) command 3 fetches 64+1: fresh 64+1 04; records 64+1",
        "5 (17: F 3 64 9) command 3 fetches 64+9: replayed 64+1 04, fresh 65+8 0011002200330044; \
         records 64+9",
        "6 (20: E 3) command 3 ends: 1 record, 9 bytes",
        "1 (5: H 64 04 = ok) the host writes 64+1: 04",
        "1 (5: H 64 04 = no) the host writes 0+0: nothing) the host writes 64+1: 04",
        "1 (5: H 64 04 = (5: H 64 04)) the host writes 64+1: 04",
        "1 (5: H 64 04 =)...) the host writes 64+1: 04",
        r"1 (5: H\x0964\x0904) the host writes 64+1: 04",
        "4 (7: B 3 = no 22) command 3 begins: refused (22): the command is open already",
        "1 command 0 begins",
        "2 command 7 fetches 0+0: nothing; no records",
        "3 command 7 fetches 9+0: nothing; records 64+9 73+2 80+1",
        "4 command 7 fetches 64+3: replayed 64+1 00, replayed 65+1 01, fresh 66+1 ff; records \
         64+3",
        "5 the host writes 64+0: nothing",
        "6 command 3 writes 64+2: new 64+2 aabb; records 64+2",
        "6 command 3 writes 64+4: over 64+2 6162, new 66+2 6364; records 64+4 80+1",
        "7 command 3 writes 64+0: nothing; records 64+2",
        "7 command 3 writes 64+0: nothing; no records",
        "8 command 3 ends: 0 records, 0 bytes",
        "9 command 3 ends: 64 records, 1 byte",
        "10 command 3 fetches 65535+4096: refused (9): the span ends beyond the window",
        "11 the host writes 16384+1: refused (9): the span ends beyond the window",
        "12 command 3 writes 64+2: refused (21): the command is not open",
        "13 command 3 ends: refused (21): the command is not open",
        "6553 an unreadable frame: refused (3): a field or bit that must be zero is not",
    ];

    #[test]
    fn lines_are_printed_as_they_were() {
        for line in LINES {
            let read = frame(line).map(|frame| frame.to_string());
            assert_eq!(read.as_deref(), Ok(line));
        }
    }

    #[test]
    fn a_step_ends_at_the_last_bracket_with_a_blank() {
        let line = "2 (7: F 3 64 1 = a) b: c) command 3 fetches 64+1: fresh 64+1 04; no records";
        let step = frame(line).unwrap().step;
        let text = "F 3 64 1 = a) b: c".to_string();
        assert_eq!(step, Some(Step { line: 7, text }));
    }

    #[test]
    fn a_fetch_and_an_own_write_have_their_parts_and_records() {
        let part = |fate, start, bytes: &[u8]| Part {
            fate,
            span: Span {
                start,
                length: bytes.len() as u32,
            },
            bytes: bytes.to_vec(),
        };
        for (deed, fates) in [
            ("fetches", [Fate::Replayed, Fate::Fresh]),
            ("writes", [Fate::Over, Fate::New]),
        ] {
            let [held, other] = fates.map(Fate::word);
            let line = format!("1 command 3 {deed} 8+3: {held} 8+1 04, {other} 9+2 a0ff");
            let read = frame(&format!("{line}; records 8+3"));
            let answer = Answer::Held {
                parts: vec![part(fates[0], 8, &[4]), part(fates[1], 9, &[0xa0, 0xff])],
                records: vec![Span {
                    start: 8,
                    length: 3,
                }],
            };
            assert_eq!(read.map(|frame| frame.answer), Ok(answer));
        }
    }

    /// A line, and the text at which it stops being one of an explanation.
    const BAD: [(&str, &str); 35] = [
        ("", ""),
        ("x", "x"),
        ("01 command 3 begins", "01 command 3 begins"),
        ("+1 command 3 begins", "+1 command 3 begins"),
        ("4294967296 command 3 begins", "4294967296 command 3 begins"),
        ("1  command 3 begins", " command 3 begins"),
        ("1 F ok 1 0 04", "F ok 1 0 04"),
        ("1 (5 B 3) command 3 begins", " B 3) command 3 begins"),
        ("1 (5: B 3 command 3 begins", "B 3 command 3 begins"),
        ("1 command 3 begins ", " "),
        ("1 command 3 begins\r", "\r"),
        ("1 command 3 begins: 04", "04"),
        ("1 command 3 starts", " starts"),
        ("1 command 3 ends", ""),
        ("1 command 3 ends: 1 records, 9 bytes", ", 9 bytes"),
        ("1 command 3 ends: 1 record, 9 byte", ""),
        ("1 the host writes 64+1: ", ""),
        ("1 the host writes 64+1: 0", "0"),
        ("1 the host writes 64+1: 0004", "0004"),
        ("1 the host writes 64+1: 0G", "0G"),
        ("1 the host writes 64+1: AB", "AB"),
        ("1 the host writes 64+1: nothing", "nothing"),
        ("1 the host writes 64+0: 04", "04"),
        ("1 the host writes 65536+1: 04", "65536+1: 04"),
        ("1 the host writes 64+4097: 04", "64+4097: 04"),
        ("1 the host writes 64-1: 04", "-1: 04"),
        ("1 the host writes 64+1: refused (9)", ")"),
        ("1 the host writes 64+1: refused (9): ", ""),
        ("1 an unreadable frame: 04", "04"),
        (
            "1 command 3 fetches 8+2: fresh 8+1 04; records 8+1",
            "; records 8+1",
        ),
        (
            "1 command 3 fetches 8+2: fresh 9+2 0000; records 8+2",
            "9+2 0000; records 8+2",
        ),
        (
            "1 command 3 fetches 8+1: new 8+1 00; records 8+1",
            "new 8+1 00; records 8+1",
        ),
        (
            "1 command 3 writes 8+1: fresh 8+1 00; records 8+1",
            "fresh 8+1 00; records 8+1",
        ),
        ("1 command 3 writes 8+1: 00", "00"),
        ("1 command 3 writes 8+0: nothing", ""),
    ];

    #[test]
    fn other_lines_are_refused_where_they_go_wrong() {
        for (line, place) in BAD {
            let found = frame(line).map_err(|fault| fault.found);
            assert_eq!(found, Err(place.to_string()), "{line}");
        }
    }
}
