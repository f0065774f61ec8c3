//! `picture`: a run that `explain` has put into words, drawn as an SVG.
//!
//! ```text
//! target/bin/explain examples/retire-list.steps |
//!     cargo run --quiet --manifest-path picture/Cargo.toml > retire-list.svg
//! ```
//!
//! Address is across, frame down: a row for each line of the explanation, with
//! the step at its right. A byte that a command fetches has the colour of
//! fresh or of replayed bytes, and bars show what the command holds then. Bytes
//! that a command writes over held ones have a bar at their top. A refused frame
//! has a cross and the number of the refusal, and what it asked for is hatched.
//! The axis is cut where no frame names an address.
//!
//! - [`frame`]: what a line says. [`rest`], [`parse`]: a line, read. [`run`]:
//!   all lines.
//! - [`clusters`], [`widths`]: where the axis is cut. [`axis`]: where addresses
//!   stand. [`layout`]: where everything else stands.
//! - [`words`], [`rows`], [`legend`], [`notes`], [`draw`]: what is drawn.
//!   [`svg`]: how it is written.

mod axis;
mod clusters;
mod draw;
mod frame;
mod layout;
mod legend;
mod notes;
mod parse;
mod rest;
mod rows;
mod run;
mod svg;
mod widths;
mod words;

use std::env;
use std::ffi::OsString;
use std::fs::File;
use std::io::{self, BufReader, Write};
use std::process::ExitCode;

use crate::run::{Bad, Run};

const USAGE: &str = "\
usage: picture [EXPLANATION]

Draws a run as an SVG on standard output: address across, frame down. The run
is read as explain prints it, from a file, or from standard input if there is
none or it is `-`:

    explain STEPS | picture > run.svg

The first 200 frames are drawn; the picture says how many are left out.
--version prints the version, --help this text.

Status: 0 if the picture is written; 1 if the input cannot be read or is no
explanation, or the output cannot be written; 2 if the words are not as above.
";

/// What the words of the command line ask for.
enum Task {
    Help,
    Version,
    /// The file to read, or standard input.
    Draw(Option<OsString>),
}

fn main() -> ExitCode {
    let output = match task(env::args_os().skip(1)) {
        Ok(Task::Help) => USAGE.to_string(),
        Ok(Task::Version) => format!("picture {}\n", env!("CARGO_PKG_VERSION")),
        Ok(Task::Draw(file)) => match read(file) {
            Ok(run) => draw::picture(&run),
            Err(why) => return fail(1, &why),
        },
        Err(why) => return fail(2, &format!("{why}\n\n{USAGE}")),
    };
    match print(&output) {
        Ok(()) => ExitCode::SUCCESS,
        Err(error) => fail(1, &format!("standard output cannot be written: {error}")),
    }
}

/// Tells on standard error why there is no picture.
fn fail(status: u8, why: &str) -> ExitCode {
    // There is nowhere to tell that this cannot be written.
    let _ = writeln!(io::stderr(), "picture: {}", why.trim_end());
    ExitCode::from(status)
}

/// What the words ask for, or why they are not as [`USAGE`] says.
fn task(words: impl Iterator<Item = OsString>) -> Result<Task, String> {
    let words: Vec<OsString> = words.collect();
    match words.as_slice() {
        [] => Ok(Task::Draw(None)),
        [word] if word == "-" => Ok(Task::Draw(None)),
        [word] if word == "--help" => Ok(Task::Help),
        [word] if word == "--version" => Ok(Task::Version),
        [word] if word.as_encoded_bytes().starts_with(b"-") => {
            Err(format!("unknown option {word:?}"))
        }
        [word] => Ok(Task::Draw(Some(word.clone()))),
        _ => Err("one file or option at most".to_string()),
    }
}

/// The run in a file or on standard input, or why there is none.
fn read(file: Option<OsString>) -> Result<Run, String> {
    let run = match file {
        None => run::read(io::stdin().lock()),
        Some(name) => {
            let file = File::open(&name);
            let file = file.map_err(|error| format!("{name:?} cannot be opened: {error}"))?;
            run::read(BufReader::new(file))
        }
    };
    run.map_err(|bad: Bad| bad.to_string())
}

/// Writes all of a text on standard output.
fn print(text: &str) -> io::Result<()> {
    let mut output = io::stdout().lock();
    output.write_all(text.as_bytes())?;
    output.flush()
}
