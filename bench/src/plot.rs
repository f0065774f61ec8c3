//! The plot: instructions of a call against its length, and against the
//! records that it joins, both axes logarithmic.

use std::fmt::Write;

use crate::cases::{Group, LENGTHS, RECORDS};
use crate::table::{title, Figures, Measure, OF_CALLS};
use crate::work::Column;

const WIDTH: f64 = 300.0;
const HEIGHT: f64 = 300.0;
const LEFT: f64 = 60.0;
const TOP: f64 = 40.0;

/// The range of the upright axis in powers of ten.
const POWERS: (i32, i32) = (1, 5);

/// One line of a panel.
struct Curve {
    label: &'static str,
    style: String,
    points: Vec<(f64, f64)>,
}

/// A part of the plot.
struct Panel {
    title: &'static str,
    left: f64,
    /// The numbers at the lower axis; the axis runs from the first to the last.
    marks: Vec<usize>,
    curves: Vec<Curve>,
}

/// The whole picture.
pub fn picture(figures: &[Figures]) -> String {
    let panels = [
        (
            "a replayed fetch by its length in bytes",
            &LENGTHS[..],
            Group::Replayed(1),
        ),
        (
            "a fresh fetch by its length in bytes",
            &LENGTHS[..],
            Group::Fresh(1),
        ),
        (
            "4,096 bytes by the records joined",
            &RECORDS[..],
            Group::Overlap,
        ),
    ];
    let mut text = String::from(
        "<svg xmlns=\"http://www.w3.org/2000/svg\" width=\"1120\" height=\"380\" \
         font-family=\"sans-serif\" font-size=\"12\">\n\
         <rect width=\"1120\" height=\"380\" fill=\"white\"/>\n",
    );
    for (place, (title, marks, group)) in panels.into_iter().enumerate() {
        let panel = Panel {
            title,
            left: LEFT + (LEFT + WIDTH) * place as f64,
            marks: marks.to_vec(),
            curves: OF_CALLS.map(|column| curve(figures, group, column)).into(),
        };
        panel.draw(&mut text).expect("a string takes every line");
    }
    text + "</svg>\n"
}

/// The curve of a program over the cases of a group.
fn curve(figures: &[Figures], group: Group, column: Column) -> Curve {
    let of_group = figures.iter().filter(|figures| figures.group == group);
    let points = of_group.filter_map(|figures| {
        let instructions = figures.of(Measure::Instructions, column)?;
        Some((figures.size as f64, instructions))
    });
    Curve {
        label: title(column),
        style: style(column),
        points: points.collect(),
    }
}

/// The colour and the dashes of a program's curves.
fn style(column: Column) -> String {
    let (colour, dashes) = match column {
        Column::Proved => ("#b03020", "none"),
        Column::Checked => ("#2050a0", "none"),
        Column::Unchecked => ("#2050a0", "5 3"),
        Column::Ranges => ("#208040", "none"),
        Column::Bitmap => ("#a07000", "none"),
        Column::Copy => ("#808080", "2 2"),
        Column::Map | Column::CheckedMap | Column::UncheckedMap => ("#702090", "none"),
        Column::Straight => ("black", "none"),
    };
    format!("fill=\"none\" stroke=\"{colour}\" stroke-width=\"2\" stroke-dasharray=\"{dashes}\"")
}

/// Where a number of instructions stands.
fn upright(instructions: f64) -> f64 {
    let (low, high) = (f64::from(POWERS.0), f64::from(POWERS.1));
    let part = (instructions.max(10.0).log10() - low) / (high - low);
    TOP + HEIGHT * (1.0 - part)
}

impl Panel {
    fn across(&self, number: f64) -> f64 {
        let (first, last) = (
            self.marks[0] as f64,
            self.marks[self.marks.len() - 1] as f64,
        );
        self.left + WIDTH * (number / first).ln() / (last / first).ln()
    }

    fn draw(&self, text: &mut String) -> std::fmt::Result {
        self.draw_axes(text)?;
        for (place, curve) in self.curves.iter().enumerate() {
            self.draw_curve(text, place, curve)?;
        }
        Ok(())
    }

    fn draw_axes(&self, text: &mut String) -> std::fmt::Result {
        let (left, right, bottom) = (self.left, self.left + WIDTH, TOP + HEIGHT);
        writeln!(text, "<text x=\"{left}\" y=\"20\">{}</text>", self.title)?;
        for power in POWERS.0..=POWERS.1 {
            let y = upright(10f64.powi(power));
            writeln!(
                text,
                "<path d=\"M{left} {y:.1}H{right}\" stroke=\"#ddd\"/>\
                 <text x=\"{}\" y=\"{:.1}\" text-anchor=\"end\">10^{power}</text>",
                left - 6.0,
                y + 4.0
            )?;
        }
        for mark in &self.marks {
            let x = self.across(*mark as f64);
            let y = bottom + 18.0;
            writeln!(
                text,
                "<text x=\"{x:.1}\" y=\"{y:.1}\" text-anchor=\"middle\">{mark}</text>"
            )?;
        }
        writeln!(
            text,
            "<path d=\"M{left} {TOP}V{bottom}H{right}\" fill=\"none\" stroke=\"black\"/>"
        )
    }

    fn draw_curve(&self, text: &mut String, place: usize, curve: &Curve) -> std::fmt::Result {
        let points = curve.points.iter().map(|(x, y)| {
            let (x, y) = (self.across(*x), upright(*y));
            format!("{x:.1},{y:.1}")
        });
        let points = points.collect::<Vec<_>>().join(" ");
        let style = &curve.style;
        writeln!(text, "<polyline points=\"{points}\" {style}/>")?;
        let (x, y) = (self.left + 12.0, TOP + 14.0 + 15.0 * place as f64);
        let line = x + 26.0;
        writeln!(
            text,
            "<path d=\"M{x} {:.1}H{line}\" {style}/><text x=\"{}\" y=\"{y}\">{}</text>",
            y - 4.0,
            line + 6.0,
            curve.label
        )
    }
}
