//! `calls`: makes direct calls in the proved library, which it links, and in
//! the reference, and compares all that each answers and leaves.

use std::env;
use std::process::ExitCode;

use calls::{file, sums};

const CALLS: &str = include_str!("../calls.txt");

const USAGE: &str = "\
usage: calls [--calls N] [--seed S]

Makes the calls of tests/calls/calls.txt and random ones in the proved library
and in the reference: the answer, the state's words, the byte map and every
buffer must be equal after each. Each status that a call can have must be among
the answers to the file.

  --calls N  at least N random calls (68000), in lists of 240 and lists of 100
             of the byte map, one of each for a seed
  --seed S   seed of the first list; the next one has S + 1 (0)

The lists of a seed are always the same. A difference names its list, S, and
'--calls 1 --seed S' makes the calls of both lists of that seed again.

The last line is 'N passed, M failed', N being calls. Status: 0 if M is 0,
else 1; 2 if the words are not as above or the file cannot be read.
";

fn main() -> ExitCode {
    let Some((calls, seed)) = parse(env::args().skip(1)) else {
        eprint!("{USAGE}");
        return ExitCode::from(2);
    };
    let items = match file::read(CALLS) {
        Ok(items) => items,
        Err(why) => {
            eprintln!("calls.txt: {why}");
            return ExitCode::from(2);
        }
    };
    let sums = sums::run(&items, calls, seed);
    print!("{sums}");
    if sums.failed() == 0 {
        ExitCode::SUCCESS
    } else {
        ExitCode::FAILURE
    }
}

/// The number of random calls and the first seed; nothing if the words are not
/// as [`USAGE`] says.
fn parse(mut words: impl Iterator<Item = String>) -> Option<(u64, u64)> {
    let (mut calls, mut seed) = (68_000, 0);
    while let Some(word) = words.next() {
        let number = match word.as_str() {
            "--calls" => &mut calls,
            "--seed" => &mut seed,
            _ => return None,
        };
        *number = words.next()?.parse().ok()?;
    }
    Some((calls, seed))
}
