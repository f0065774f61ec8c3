//! `explain EXPLAIN`: holds a program that says journals in words against the
//! reference.

use std::env;
use std::io;
use std::path;
use std::process::ExitCode;

use explain::arguments::{OPTIONS, USAGE};
use explain::sums;
use sampling::arguments::{status, Arguments};

fn main() -> ExitCode {
    let arguments = Arguments::parse(env::args_os().skip(1), OPTIONS);
    status("explain", USAGE, arguments, run)
}

/// Prints complaints and sums, and answers how many checks failed.
fn run(arguments: &Arguments<2>) -> io::Result<u64> {
    let program = path::absolute(&arguments.program)?;
    let [journals, seed] = arguments.numbers;
    let sums = sums::run(&program, journals, seed)?;
    print!("{sums}");
    Ok(sums.failed())
}
