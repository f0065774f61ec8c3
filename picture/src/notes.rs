//! What is said below the rows.

use std::collections::BTreeMap;

use crate::frame::{Answer, Fate, Frame};
use crate::layout::Layout;
use crate::legend::cross;
use crate::svg::Svg;
use crate::words::shortened;

/// The most characters of the reason of a refusal.
const REASON: usize = 80;

/// A note.
#[derive(Debug, PartialEq, Eq)]
pub enum Note {
    /// How many frames there are below the last row.
    LeftOut(u32),
    /// What a bar at the top of bytes means.
    Over,
    /// What the number at a cross means.
    Refusal(u32, String),
}

/// The notes on a run of which these frames are drawn and so many left out.
pub fn notes(frames: &[Frame], left_out: u32) -> Vec<Note> {
    let mut reasons = BTreeMap::new();
    for frame in frames {
        if let Answer::Refused { number, reason } = &frame.answer {
            reasons.insert(*number, shortened(reason, REASON));
        }
    }
    let left_out = (left_out > 0).then_some(Note::LeftOut(left_out));
    let over = frames.iter().any(writes_over).then_some(Note::Over);
    let refusals = reasons
        .into_iter()
        .map(|(number, reason)| Note::Refusal(number, reason));
    left_out.into_iter().chain(over).chain(refusals).collect()
}

/// Whether a frame writes over what its command holds.
fn writes_over(frame: &Frame) -> bool {
    match &frame.answer {
        Answer::Held { parts, .. } => parts.iter().any(|part| part.fate == Fate::Over),
        _ => false,
    }
}

/// Draws the notes one below the other.
pub fn draw(svg: &mut Svg, layout: &Layout, notes: &[Note]) {
    for (place, note) in notes.iter().enumerate() {
        let base = layout.note_base(place);
        match note {
            Note::LeftOut(1) => {
                svg.text("word", layout.front.deed, base, "1 more frame is left out")
            }
            Note::LeftOut(frames) => {
                let text = format!("{frames} more frames are left out");
                svg.text("word", layout.front.deed, base, &text);
            }
            Note::Over => {
                let (left, top) = (layout.front.deed, base - 11.0);
                svg.rectangle("own", [left, top, 14.0, 14.0]);
                svg.rectangle("record", [left, top, 14.0, 2.0]);
                svg.text("word", left + 20.0, base, "written over a held byte");
            }
            Note::Refusal(number, reason) => {
                cross(svg, layout.front.cross + 5.0, base - 4.0);
                svg.text(
                    "refusal",
                    layout.front.cross + 14.0,
                    base,
                    &number.to_string(),
                );
                svg.text("word", layout.front.plot, base, reason);
            }
        }
    }
}

#[cfg(test)]
mod tests {
    use super::*;
    use crate::parse;

    fn frames(lines: &[&str]) -> Vec<Frame> {
        let frames = lines.iter().map(|line| parse::frame(line).unwrap());
        frames.collect()
    }

    #[test]
    fn the_bar_at_the_top_is_explained_where_there_is_one() {
        let new = "1 command 3 writes 8+1: new 8+1 04; records 8+1";
        let over = "2 command 3 writes 8+1: over 8+1 05; records 8+1";
        assert_eq!(notes(&frames(&[new]), 0), []);
        let both = notes(&frames(&[new, over, over]), 2);
        assert_eq!(both, [Note::LeftOut(2), Note::Over]);
    }

    #[test]
    fn each_number_of_a_refusal_is_explained_once() {
        let frames = frames(&[
            "1 command 3 begins",
            "2 command 3 begins: refused (22): the command is open already",
            "3 command 4 ends: refused (21): the command is not open",
            "4 command 3 begins: refused (22): the command is open already",
        ]);
        let refusals = [
            Note::Refusal(21, "the command is not open".to_string()),
            Note::Refusal(22, "the command is open already".to_string()),
        ];
        assert_eq!(notes(&frames, 0), refusals);
        assert_eq!(notes(&frames[..1], 7), [Note::LeftOut(7)]);
    }
}
