//! A log program that is right: the reference's log, and behind it what must be
//! said on standard error.

use std::io::{self, Read, Write};

use compare::said::said;
use reference::log;

fn main() -> io::Result<()> {
    let mut input = vec![];
    io::stdin().lock().read_to_end(&mut input)?;
    let log = log::run(&input);
    io::stdout().lock().write_all(log.as_bytes())?;
    io::stderr()
        .lock()
        .write_all(said(&input, log.as_bytes()).as_bytes())
}
