//! Where everything stands that is not an address: the columns, the rows and
//! the size of the picture.

use crate::axis::Axis;
use crate::clusters::{clusters, Named};
use crate::frame::{Answer, Frame};
use crate::widths;
use crate::words::side;

/// The most width of the picture, and the width of the legend.
const WIDTH: f64 = 900.0;
const LEAST_WIDTH: f64 = 780.0;

/// The room at the sides, and above the notes.
pub const MARGIN: f64 = 16.0;

/// The room between two columns.
const BETWEEN: f64 = 12.0;

/// The top of the first row: the legend and the axis are above it.
pub const TOP: f64 = 84.0;

/// The height of a line of notes.
const NOTE: f64 = 18.0;

/// The height of a row if they are few, and if they are many.
const ROWS: [f64; 2] = [26.0, 20.0];

/// The most rows that are few.
const FEW: usize = 40;

/// The width of a character of the fixed-width font.
const CHARACTER: f64 = 7.25;

/// The characters of a text at the right side, at most, and if the axis wants
/// the room.
const CHARACTERS: [f64; 2] = [34.0, 16.0];

/// The least width of a column of numbers.
const NUMBERS: f64 = 30.0;

/// The width of the words on what a frame does.
const DEED: f64 = 124.0;

/// The width of the column of crosses, if there are some.
const CROSS: f64 = 38.0;

/// The least width of the part with the axis.
const LEAST_PLOT: f64 = 160.0;

/// The columns before the axis: their left sides, but where it is said.
#[derive(Debug)]
pub struct Front {
    /// The right side of the frames' numbers.
    pub number: f64,
    pub deed: f64,
    pub cross: f64,
    /// The part with the axis.
    pub plot: f64,
}

impl Front {
    fn new(frames: &[Frame]) -> Front {
        let numbers = frames.iter().map(|frame| frame.number);
        let number = MARGIN + digits(numbers).unwrap_or(NUMBERS);
        let deed = number + BETWEEN;
        let cross = deed + DEED;
        let is_refused = |frame: &Frame| matches!(frame.answer, Answer::Refused { .. });
        let crosses = frames.iter().any(is_refused);
        let plot = cross + if crosses { CROSS } else { 0.0 };
        Front {
            number,
            deed,
            cross,
            plot,
        }
    }
}

/// Where everything stands.
#[derive(Debug)]
pub struct Layout {
    pub front: Front,
    pub axis: Axis,
    /// The right side of the part with the axis.
    pub plot_right: f64,
    /// The right side of the lines' numbers, if there are some.
    pub line: Option<f64>,
    /// The left side of the texts behind the axis.
    pub text: f64,
    /// The most characters of such a text.
    pub characters: usize,
    /// The height of a row.
    pub row: f64,
    /// Where the rows end.
    pub bottom: f64,
    pub width: f64,
    pub height: f64,
}

impl Layout {
    /// The layout of frames with so many notes below them.
    pub fn new(frames: &[Frame], notes: usize) -> Layout {
        let front = Front::new(frames);
        let steps = frames.iter().filter_map(|frame| frame.step.as_ref());
        let lines = digits(steps.map(|step| step.line));
        let before_text = BETWEEN + lines.map_or(0.0, |width| width + BETWEEN);
        let clusters = clusters(&named(frames));
        let room = WIDTH - front.plot - before_text - MARGIN;
        let characters = characters(frames, room - widths::wanted(&clusters));
        let texts = CHARACTER * characters as f64;
        let axis = Axis::new(&clusters, front.plot, room - texts);
        let plot_right = axis.right().unwrap_or(0.0).max(front.plot + LEAST_PLOT);
        let text = plot_right + before_text;
        let row = ROWS[usize::from(frames.len() > FEW)];
        let bottom = TOP + row * frames.len() as f64;
        Layout {
            front,
            axis,
            plot_right,
            line: lines.map(|_| text - BETWEEN),
            text,
            characters,
            row,
            bottom,
            width: (text + texts + MARGIN).max(LEAST_WIDTH).round(),
            height: bottom + MARGIN + NOTE * notes as f64,
        }
    }

    /// The top of the row at a place, counted from 0.
    pub fn row_top(&self, place: usize) -> f64 {
        TOP + self.row * place as f64
    }

    /// The base line of the note at a place, counted from 0.
    pub fn note_base(&self, place: usize) -> f64 {
        self.bottom + MARGIN + NOTE * place as f64 + 4.0
    }
}

/// The width of a column of numbers, if there is one.
fn digits(numbers: impl Iterator<Item = u32>) -> Option<f64> {
    let most = numbers.max()?.to_string();
    Some((CHARACTER * most.len() as f64).max(NUMBERS))
}

/// How many characters the texts at the right side get if so much room is left
/// for them.
fn characters(frames: &[Frame], room: f64) -> usize {
    let [most, least] = CHARACTERS;
    let characters = (room / CHARACTER).clamp(least, most) as usize;
    let texts = frames.iter().map(|frame| side(frame, characters));
    texts.map(|text| text.chars().count()).max().unwrap_or(0)
}

/// All spans that are drawn.
fn named(frames: &[Frame]) -> Vec<Named> {
    let mut named = vec![];
    for frame in frames {
        let touched = !matches!(frame.answer, Answer::Refused { .. });
        let asked = frame.asked.span().into_iter();
        named.extend(asked.map(|span| Named { span, touched }));
        if let Answer::Held { records, .. } = &frame.answer {
            named.extend(records.iter().map(|&span| Named { span, touched }));
        }
    }
    named
}

#[cfg(test)]
mod tests {
    use super::*;
    use crate::parse;

    fn layout(lines: &[&str]) -> Layout {
        let frames: Vec<Frame> = lines
            .iter()
            .map(|line| parse::frame(line).unwrap())
            .collect();
        Layout::new(&frames, 0)
    }

    #[test]
    fn columns_stand_from_left_to_right() {
        let layout = layout(&[
            "1 (7: B 3) command 3 begins",
            "2 (8: F 3 64 1) command 3 fetches 64+1: fresh 64+1 04; records 64+1",
            "3 (9: E 4) command 4 ends: refused (21): the command is not open",
        ]);
        let columns = [
            layout.front.number,
            layout.front.deed,
            layout.front.cross,
            layout.front.plot,
            layout.plot_right,
            layout.line.unwrap(),
            layout.text,
            layout.width,
        ];
        assert!(columns.windows(2).all(|pair| pair[0] < pair[1]));
    }

    #[test]
    fn there_is_no_column_for_what_does_not_occur() {
        let layout = layout(&["1 command 3 begins", "2 command 3 ends: 0 records, 0 bytes"]);
        assert_eq!(layout.front.cross, layout.front.plot);
        assert_eq!(layout.line, None);
        assert_eq!(layout.axis.right(), None);
    }

    #[test]
    fn the_picture_is_never_too_wide() {
        let long = "f".repeat(300);
        let written = "00".repeat(4096);
        let line = format!("99999 (1000000: {long}) the host writes 60000+4096: {written}");
        let refused = "100000 command 3 fetches 0+4096: refused (21): the command is not open";
        let layout = layout(&[&line, refused]);
        assert_eq!(layout.width, WIDTH);
        assert_eq!(layout.characters, 16);
    }

    #[test]
    fn a_text_has_room_if_the_axis_does_not_want_it() {
        let step = "H 64 040011002200330044 = ok 9";
        let line = format!("1 (5: {step}) the host writes 64+9: 040011002200330044");
        assert_eq!(layout(&[&line]).characters, step.len());
    }

    #[test]
    fn rows_are_lower_if_they_are_many() {
        let rows = |count| layout(&vec!["1 command 3 begins"; count]).row;
        assert!(rows(40) > rows(41));
    }
}
