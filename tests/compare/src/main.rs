//! `compare FETCHLOG`: holds a log program against the reference.

use std::env;
use std::io::{self, Write};
use std::process::ExitCode;

use compare::arguments::{OPTIONS, USAGE};
use compare::campaign;
use sampling::arguments::{status, Arguments};

fn main() -> ExitCode {
    let arguments = Arguments::parse(env::args_os().skip(1), OPTIONS);
    status("compare", USAGE, arguments, compare)
}

/// Prints complaints and sums, and answers how many checks failed.
fn compare(arguments: &Arguments<3>) -> io::Result<u64> {
    let mut out = io::stdout().lock();
    let sums = campaign::run(arguments, &mut out)?;
    write!(out, "{sums}")?;
    out.flush()?;
    Ok(sums.failed())
}
