//! `library`: runs journals through the proved library, which it links, and
//! through the reference, and compares all that each replies and leaves.
//!
//! - [`lent`]: the buffers of a run.
//! - [`expected`]: what a run must reply and leave, by the reference.
//! - [`case`]: one journal with its buffers, compared.
//! - [`fixed`]: the cases of every run.
//! - [`sums`]: all cases, and what came of them.

mod case;
mod expected;
mod fixed;
mod lent;
mod sums;

use std::env;
use std::process::ExitCode;

const USAGE: &str = "\
usage: library [--journals N] [--seed S]

Runs fixed and random journals through the proved library and through the
reference: the reply, output, store, window and destination must be equal
after each. Each kind of accepted call, each refusal that a journal can bring
about and each kind of room of an output is a check of its own.

  --journals N  N random journals (1000)
  --seed S      seed of the first journal; the next one has S + 1 (0)

The last line is 'N passed, M failed'. Status: 0 if M is 0, else 1; 2 if the
words are not as above.
";

fn main() -> ExitCode {
    let Some((journals, seed)) = parse(env::args().skip(1)) else {
        eprint!("{USAGE}");
        return ExitCode::from(2);
    };
    let sums = sums::run(journals, seed);
    print!("{sums}");
    if sums.failed() == 0 {
        ExitCode::SUCCESS
    } else {
        ExitCode::FAILURE
    }
}

/// The number of journals and the first seed; nothing if the words are not as
/// [`USAGE`] says.
fn parse(mut words: impl Iterator<Item = String>) -> Option<(u64, u64)> {
    let (mut journals, mut seed) = (1_000, 0);
    while let Some(word) = words.next() {
        let number = match word.as_str() {
            "--journals" => &mut journals,
            "--seed" => &mut seed,
            _ => return None,
        };
        *number = words.next()?.parse().ok()?;
    }
    Some((journals, seed))
}
