//! `bench`: what calls and frames cost in the proved library and in others.
//!
//! - [`cases`]: what is measured.
//! - [`call`], [`answer`]: calls, and what is answered.
//! - [`programs`]: the programs that calls are made on.
//! - [`memory`], [`buffer`]: their buffers.
//! - [`work`]: a case as a program does it.
//! - [`agreement`]: that all programs do the same.
//! - [`counts`]: instructions; [`times`]: nanoseconds; [`stack`]: bytes of it.
//! - [`host`]: what it is measured on.
//! - [`table`], [`summary`], [`plot`], [`document`]: the figures written down.

mod agreement;
mod answer;
mod buffer;
mod call;
mod cases;
mod counts;
mod document;
mod host;
mod memory;
mod plot;
mod programs;
mod stack;
mod summary;
mod table;
mod times;
mod work;

use std::env;
use std::io;
use std::path::Path;
use std::process::ExitCode;

use table::Figures;

fn main() -> ExitCode {
    let words: Vec<String> = env::args().skip(1).collect();
    let result = match words.split_first() {
        None => measure(),
        Some((word, rest)) if word == counts::COUNTED => {
            counts::count(rest).ok_or_else(|| io::Error::other("there is no such column"))
        }
        Some(_) => Err(io::Error::other("usage: bench")),
    };
    match result {
        Ok(()) => ExitCode::SUCCESS,
        Err(error) => {
            eprintln!("bench: {error}");
            ExitCode::FAILURE
        }
    }
}

/// Measures every case, prints the tables and writes them to the document.
fn measure() -> io::Result<()> {
    let cases = cases::all();
    if let Some(name) = agreement::difference(&cases) {
        let message = format!("the programs do not do the same: {name}");
        return Err(io::Error::other(message));
    }
    let (counts, times) = (counts::all(&cases)?, times::all(&cases));
    let figures = cases.iter().zip(counts).zip(times);
    let figures: Vec<Figures> = figures
        .map(|((case, counts), times)| Figures::new(case, counts, times))
        .collect();
    let depths = stack::depths(&cases);
    print!("{}", summary::lines(&figures));
    print!("{}", table::tables(&figures, &depths));
    let docs = Path::new(env!("CARGO_MANIFEST_DIR")).join("../docs");
    document::write(&docs, &figures, &depths)
}
