//! The picture of a run.

use crate::frame::counted;
use crate::layout::{Layout, TOP};
use crate::run::Run;
use crate::svg::Svg;
use crate::{legend, notes, rows};

/// What a reader is told who does not see the picture.
const DESCRIPTION: &str = "Address across, frame down. Four colours: bytes that a command fetches \
    fresh from the window, bytes that are replayed from what it holds, bytes that the host writes, \
    bytes that a command writes. What a refused frame asked for is hatched.";

/// The least width of a gap with a mark in it.
const MARKED: f64 = 10.0;

/// The picture of a run, as an SVG.
pub fn picture(run: &Run) -> String {
    let notes = notes::notes(&run.frames, run.left_out());
    let layout = Layout::new(&run.frames, notes.len());
    let mut svg = Svg::new(layout.width, layout.height, &title(run), DESCRIPTION);
    svg.line(format_args!(
        "<style>\n{}</style>",
        include_str!("style.css")
    ));
    svg.line(legend::HATCH);
    svg.rectangle("page", [0.0, 0.0, layout.width, layout.height]);
    legend::draw(&mut svg);
    heads(&mut svg, &layout);
    axis(&mut svg, &layout);
    for (place, frame) in run.frames.iter().enumerate() {
        rows::draw(&mut svg, &layout, layout.row_top(place), frame);
    }
    notes::draw(&mut svg, &layout, &notes);
    svg.finish()
}

/// How the run went, as the programs count.
fn title(run: &Run) -> String {
    let frames = counted(run.total(), "frame");
    let unreadable = if run.unreadable { ", 1 unreadable" } else { "" };
    let (ok, refused) = (run.ok, run.refused);
    format!("A run of {frames}: {ok} ok, {refused} refused{unreadable}")
}

/// The heads of the columns.
fn heads(svg: &mut Svg, layout: &Layout) {
    let base = TOP - 14.0;
    svg.text("head number", layout.front.number, base, "frame");
    let address = match layout.axis.stretches.len() {
        0 => "",
        1 => "address",
        _ => "address (cut)",
    };
    svg.text("head number", layout.front.plot - 16.0, base, address);
    match layout.line {
        Some(right) => {
            svg.text("head number", right, base, "line");
            svg.text("head", layout.text, base, "step");
        }
        None => svg.text("head", layout.text, base, "span"),
    }
}

/// The clusters, the gaps between them and the addresses.
fn axis(svg: &mut Svg, layout: &Layout) {
    let (line, height) = (TOP - 6.0, layout.bottom - TOP);
    for stretch in &layout.axis.stretches {
        let width = stretch.right() - stretch.left;
        svg.rectangle("cluster", [stretch.left, TOP, width, height]);
        svg.stroke("axis", [stretch.left, line, stretch.right(), line]);
    }
    for pair in layout.axis.stretches.windows(2) {
        if layout.axis.gap >= MARKED {
            gap(svg, (pair[0].right() + pair[1].left) / 2.0, line);
        }
    }
    for label in layout.axis.labels() {
        svg.stroke("axis", [label.middle, line, label.middle, line - 4.0]);
        svg.text(
            "label",
            label.middle,
            line - 8.0,
            &label.address.to_string(),
        );
    }
}

/// The mark of a gap: two slanted strokes.
fn gap(svg: &mut Svg, middle: f64, line: f64) {
    for x in [middle - 2.5, middle + 2.5] {
        svg.stroke("axis", [x - 2.5, line + 5.0, x + 2.5, line - 5.0]);
    }
}
