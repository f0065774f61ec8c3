//! What the colours and marks mean.

use crate::layout::MARGIN;
use crate::svg::Svg;

/// The hatching of what a refused frame asked for.
pub const HATCH: &str = "<defs><pattern id=\"hatch\" width=\"6\" height=\"6\" \
    patternUnits=\"userSpaceOnUse\" patternTransform=\"rotate(45)\">\
    <rect width=\"1.5\" height=\"6\" fill=\"#b3261e\" fill-opacity=\"0.45\"/></pattern></defs>";

/// The classes of coloured cells, what they mean, and how wide each entry is.
const COLOURS: [(&str, &str, f64); 4] = [
    ("fresh", "fresh", 72.0),
    ("replayed", "replayed", 92.0),
    ("host", "written by the host", 150.0),
    ("own", "written by a command", 166.0),
];

/// Draws the legend at the top of the picture.
pub fn draw(svg: &mut Svg) {
    let (mut x, y) = (MARGIN, 28.0);
    for (class, words, width) in COLOURS {
        svg.rectangle(class, [x, y - 10.0, 14.0, 14.0]);
        svg.text("word", x + 20.0, y, words);
        x += width;
    }
    svg.rectangle("record", [x, y - 4.0, 14.0, 2.0]);
    svg.text("word", x + 20.0, y, "held by the command");
    x += 160.0;
    cross(svg, x + 5.0, y - 3.0);
    svg.rectangle("asked", [x + 16.0, y - 9.0, 20.0, 12.0]);
    svg.text("word", x + 43.0, y, "refused");
}

/// Draws the cross of a refused frame around a point.
pub fn cross(svg: &mut Svg, x: f64, y: f64) {
    svg.stroke("cross", [x - 4.0, y - 4.0, x + 4.0, y + 4.0]);
    svg.stroke("cross", [x - 4.0, y + 4.0, x + 4.0, y - 4.0]);
}
