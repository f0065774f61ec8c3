//! `attack`: the host changes a retire list between the check of its count
//! and its use, and a page list between two walks of it.
//!
//! - [`lists`]: both lists, and what the host changes of them.
//! - [`host`]: the window, and the thread that writes it.
//! - [`device`]: the calls, in the proved library.
//! - [`prey`]: what is looked at, and how.
//! - [`race`]: the attack through the cache and around it.
//! - [`pages`]: what is held while the window cannot be read.

mod device;
mod host;
mod lists;
mod pages;
mod prey;
mod race;

use std::env;
use std::process::ExitCode;

use prey::{Count, Pages, Prey};

const USAGE: &str = "\
usage: attack [--runs N]

A second thread writes 4 and 40 over the count of a retire list as fast as it
can. Each of N runs (100000) checks the count and then uses the list in three
ways: by two plain reads, by two commands of the cache, and by one command.
Then it writes two addresses over an entry of a page list, and each of N runs
walks the list to check its spans and again to use them, in the same three ways.
There are more runs if counts or spans differ too seldom in the first two ways.
Then a span is fetched and the page list is walked while the window cannot be
read.

Status: 0 if what is checked and what is used differ at times in the first two
ways and never in the third, and what is held is served without the window; else
1. 2 if the words are not as above.
";

fn main() -> ExitCode {
    let Some(runs) = parse(env::args().skip(1)) else {
        eprint!("{USAGE}");
        return ExitCode::from(2);
    };
    let results = [
        is_withstood::<Count>(runs),
        is_withstood::<Pages>(runs),
        is_served_without_a_window(),
    ];
    if results == [true; 3] {
        ExitCode::SUCCESS
    } else {
        println!("failed");
        ExitCode::FAILURE
    }
}

/// Makes the runs, and tells what was seen.
fn is_withstood<P: Prey>(runs: u64) -> bool {
    let seen = race::run::<P>(runs);
    print!("{}", seen.told(P::WORDS));
    seen.is_good()
}

/// Makes the trials with a window that is closed, and tells of each.
fn is_served_without_a_window() -> bool {
    println!("a window that cannot be read:");
    let mut good = true;
    for trial in pages::trials() {
        let result = trial.run();
        let told = result.as_ref().err().map_or("as it must be", |why| why);
        println!("  {}: {told}", trial.name);
        good &= result.is_ok();
    }
    good
}

/// The number of runs; nothing if the words are not as [`USAGE`] says.
fn parse(mut words: impl Iterator<Item = String>) -> Option<u64> {
    match (words.next().as_deref(), words.next(), words.next()) {
        (None, _, _) => Some(100_000),
        (Some("--runs"), Some(number), None) => number.parse().ok().filter(|runs| *runs > 0),
        _ => None,
    }
}
