//! The row of a frame.

use crate::axis::Place;
use crate::frame::{Answer, Asked, Fate, Frame, Part, Span};
use crate::layout::Layout;
use crate::legend::cross;
use crate::svg::Svg;
use crate::words::{aside, shortened, side};

/// The least width of a byte whose value is written into it.
const VALUE: f64 = 14.5;

/// The least width of what is drawn, however few bytes it has.
const LEAST: f64 = 2.5;

/// The most characters of a line that a browser shows for a row.
const MOST_SHOWN: usize = 160;

/// The width of a character of what is said in the place of bytes.
const CHARACTER: f64 = 6.0;

/// A row that is being drawn.
struct Row<'a> {
    svg: &'a mut Svg,
    layout: &'a Layout,
    /// The top of the cells, and their height.
    top: f64,
    height: f64,
}

/// Draws the frame whose row has this top.
pub fn draw(svg: &mut Svg, layout: &Layout, top: f64, frame: &Frame) {
    svg.open_group(&shortened(&frame.to_string(), MOST_SHOWN));
    let mut row = Row {
        svg,
        layout,
        top: top + 4.0,
        height: layout.row - 9.0,
    };
    row.columns(frame);
    row.answer(frame);
    svg.close_group();
}

impl Row<'_> {
    fn middle(&self) -> f64 {
        self.top + self.height / 2.0
    }

    /// A text at the height of this row.
    fn text(&mut self, class: &str, x: f64, text: &str) {
        let base = self.middle() + 4.0;
        self.svg.text(class, x, base, text);
    }

    /// The columns of text.
    fn columns(&mut self, frame: &Frame) {
        let layout = self.layout;
        self.text("number", layout.front.number, &frame.number.to_string());
        self.text("deed", layout.front.deed, &frame.asked.deed());
        if let (Some(step), Some(right)) = (&frame.step, layout.line) {
            self.text("line", right, &step.line.to_string());
        }
        self.text("step", layout.text, &side(frame, layout.characters));
    }

    /// What came of the frame.
    fn answer(&mut self, frame: &Frame) {
        match (&frame.answer, frame.asked) {
            (Answer::Begun | Answer::Ended { .. }, _) => self.edge(&frame.answer),
            (Answer::Held { parts, records }, _) => self.held(parts, records),
            (Answer::Written(bytes), Asked::HostWrite(span)) => self.cells("host", span, bytes),
            (Answer::Written(_), _) => {}
            (Answer::Refused { number, .. }, asked) => self.refused(*number, asked.span()),
        }
        if let Some(words) = aside(&frame.answer) {
            self.text("aside", self.layout.front.plot + 4.0, &words);
        }
    }

    /// The line across that marks a begin or an end, behind what is said.
    fn edge(&mut self, answer: &Answer) {
        let words = aside(answer).map_or(0.0, |words| 8.0 + CHARACTER * words.len() as f64);
        let (left, right) = (self.layout.front.plot + words, self.layout.plot_right);
        let middle = self.middle();
        self.svg.stroke("edge", [left, middle, right, middle]);
    }

    /// The bytes of a fetch or an own write, small parts over large ones, and
    /// below them bars for all that the command holds.
    fn held(&mut self, parts: &[Part], records: &[Span]) {
        let mut parts: Vec<&Part> = parts.iter().collect();
        parts.sort_by_key(|part| std::cmp::Reverse(part.span.length));
        for part in parts {
            self.part(part);
        }
        for record in records {
            self.bar(*record, self.top + self.height + 1.5);
        }
    }

    /// The bytes of a part, with a bar at the top of those that came over others.
    fn part(&mut self, part: &Part) {
        let class = match part.fate {
            Fate::Fresh => "fresh",
            Fate::Replayed => "replayed",
            Fate::New | Fate::Over => "own",
        };
        self.cells(class, part.span, &part.bytes);
        if part.fate == Fate::Over {
            self.bar(part.span, self.top);
        }
    }

    /// A bar over the addresses of a span.
    fn bar(&mut self, span: Span, top: f64) {
        if let Some(place) = self.layout.axis.place(span) {
            let width = (place.width - 1.0).max(LEAST);
            self.svg
                .rectangle("record", [place.left + 0.5, top, width, 2.0]);
        }
    }

    /// The cross, and the outline of what was asked for.
    fn refused(&mut self, number: u32, asked: Option<Span>) {
        let left = self.layout.front.cross;
        cross(self.svg, left + 5.0, self.middle());
        self.text("refusal", left + 14.0, &number.to_string());
        if let Some(place) = asked.and_then(|span| self.layout.axis.place(span)) {
            let width = (place.width - 2.0).max(LEAST);
            let (left, top) = (place.left + 1.0, self.top + 1.0);
            self.svg
                .rectangle("asked", [left, top, width, self.height - 2.0]);
        }
    }

    /// Bytes with their values, or one piece if they are too small for that.
    fn cells(&mut self, class: &str, span: Span, bytes: &[u8]) {
        let Some(Place { left, width, byte }) = self.layout.axis.place(span) else {
            return;
        };
        if byte < VALUE {
            let width = width.max(LEAST);
            self.svg
                .rectangle(class, [left, self.top, width, self.height]);
            return;
        }
        for (index, value) in bytes.iter().enumerate() {
            let left = left + index as f64 * byte;
            let cell = [left + 0.5, self.top, byte - 1.0, self.height];
            self.svg.rectangle(class, cell);
            self.text("value", left + byte / 2.0, &format!("{value:02x}"));
        }
    }
}
