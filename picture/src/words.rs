//! The texts of a picture.

use crate::frame::{counted, Answer, Asked, Fate, Frame, Part};

/// The text at the right side of a row, of so many characters at most: the
/// step, or the span and, if they fit, how many of its bytes are fresh and
/// replayed, or new and written over others.
pub fn side(frame: &Frame, most: usize) -> String {
    if let Some(step) = &frame.step {
        return shortened(&step.text, most);
    }
    let span = frame
        .asked
        .span()
        .map_or(String::new(), |span| span.to_string());
    let Answer::Held { parts, .. } = &frame.answer else {
        return span;
    };
    let fates = match frame.asked {
        Asked::OwnWrite(..) => [Fate::New, Fate::Over],
        _ => [Fate::Fresh, Fate::Replayed],
    };
    let [one, other] = fates.map(|fate| format!("{} {}", sum(parts, fate), fate.word()));
    let text = format!("{span}: {one}, {other}");
    if text.len() <= most {
        text
    } else {
        span
    }
}

/// How many bytes have this fate.
fn sum(parts: &[Part], fate: Fate) -> u32 {
    let parts = parts.iter().filter(|part| part.fate == fate);
    parts.map(|part| part.span.length).sum()
}

/// What is said in the place of bytes if there are none.
pub fn aside(answer: &Answer) -> Option<String> {
    match answer {
        Answer::Ended { records, bytes } => {
            let (records, bytes) = (counted(*records, "record"), counted(*bytes, "byte"));
            Some(format!("held {records}, {bytes}"))
        }
        Answer::Held { parts, .. } if parts.is_empty() => Some("nothing".to_string()),
        Answer::Written(bytes) if bytes.is_empty() => Some("nothing".to_string()),
        _ => None,
    }
}

/// A text, or its front and an ellipsis.
pub fn shortened(text: &str, most: usize) -> String {
    if text.chars().count() <= most {
        return text.to_string();
    }
    let front: String = text.chars().take(most - 1).collect();
    front + "\u{2026}"
}

#[cfg(test)]
mod tests {
    use super::*;
    use crate::parse;

    fn side_of(line: &str) -> String {
        side(&parse::frame(line).unwrap(), 30)
    }

    #[test]
    fn the_step_is_at_the_side() {
        let line = "1 (5: H 64 04 = ok) the host writes 64+1: 04";
        assert_eq!(side_of(line), "H 64 04 = ok");
        let line = "1 (5: H 64 0102030405060708090a0b0c0d = ok) the host writes 64+1: 04";
        assert_eq!(side_of(line), "H 64 0102030405060708090a0b0c\u{2026}");
    }

    #[test]
    fn without_steps_it_is_the_span() {
        let line = "1 command 3 fetches 8+3: replayed 8+1 04, fresh 9+2 a0ff; records 8+3";
        assert_eq!(side_of(line), "8+3: 2 fresh, 1 replayed");
        assert_eq!(side(&parse::frame(line).unwrap(), 20), "8+3");
        let line = "1 command 3 writes 8+3: over 8+1 04, new 9+2 a0ff; records 8+3";
        assert_eq!(side_of(line), "8+3: 2 new, 1 over");
        assert_eq!(side_of("1 the host writes 64+1: 04"), "64+1");
        assert_eq!(side_of("1 command 3 begins"), "");
    }

    #[test]
    fn what_has_no_bytes_is_said() {
        let aside = |line| aside(&parse::frame(line).unwrap().answer);
        let ended = aside("1 command 3 ends: 1 record, 9 bytes");
        assert_eq!(ended.as_deref(), Some("held 1 record, 9 bytes"));
        let nothing = aside("1 command 3 fetches 64+0: nothing; no records");
        assert_eq!(nothing.as_deref(), Some("nothing"));
        let nothing = aside("1 command 3 writes 64+0: nothing; records 8+3");
        assert_eq!(nothing.as_deref(), Some("nothing"));
        let nothing = aside("1 the host writes 64+0: nothing");
        assert_eq!(nothing.as_deref(), Some("nothing"));
        assert_eq!(aside("1 the host writes 64+1: 00"), None);
    }
}
