//! The log program: frames on standard input, the log on standard output.

use std::env;
use std::io::{self, Read, Write};
use std::process::ExitCode;

use reference::log;

fn main() -> ExitCode {
    if env::args_os().len() > 1 {
        eprintln!("usage: fetchlog-reference < FRAMES > LOG");
        return ExitCode::from(2);
    }
    match print_log() {
        Ok(()) => ExitCode::SUCCESS,
        Err(error) => {
            eprintln!("fetchlog-reference: {error}");
            ExitCode::FAILURE
        }
    }
}

/// Reads no more than shows whether the input is too long.
fn print_log() -> io::Result<()> {
    let mut input = Vec::new();
    io::stdin()
        .lock()
        .take(log::INPUT_BYTES as u64 + 1)
        .read_to_end(&mut input)?;
    let mut output = io::stdout().lock();
    output.write_all(log::run(&input).as_bytes())?;
    output.flush()
}
