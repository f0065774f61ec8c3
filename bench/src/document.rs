//! Puts the figures into the document, between marks.

use std::fs;
use std::io;
use std::path::Path;

use crate::host;
use crate::plot;
use crate::stack::Depth;
use crate::summary;
use crate::table::{self, Figures};

const SUMMARY: (&str, &str) = (
    "<!-- summary: written by bench/run -->\n",
    "<!-- end of summary -->\n",
);
const FIGURES: (&str, &str) = (
    "<!-- figures: written by bench/run -->\n",
    "<!-- end of figures -->\n",
);

/// Writes the summary, the tables and the plot; all else in the document
/// stays.
pub fn write(folder: &Path, figures: &[Figures], depths: &[Depth]) -> io::Result<()> {
    let document = folder.join("PERFORMANCE.md");
    let text = fs::read_to_string(&document)?;
    let tables = host::description() + &table::tables(figures, depths);
    let text = between(&text, SUMMARY, &summary::lines(figures))
        .and_then(|text| between(&text, FIGURES, &tables))
        .ok_or_else(|| io::Error::other("the document has no marks for the figures"))?;
    fs::write(document, text)?;
    fs::write(folder.join("performance.svg"), plot::picture(figures))
}

/// The text with something else between two marks.
fn between(text: &str, (from, to): (&str, &str), new: &str) -> Option<String> {
    let (before, rest) = text.split_once(from)?;
    let (_, after) = rest.split_once(to)?;
    Some(format!("{before}{from}\n{new}\n{to}{after}"))
}
