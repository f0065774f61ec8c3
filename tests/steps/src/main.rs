//! `steps FRAMEWRITER`: holds a program that writes frames against the reference.

use std::env;
use std::io;
use std::path;
use std::process::ExitCode;

use sampling::arguments::{status, Arguments};
use steps::arguments::{OPTIONS, USAGE};
use steps::{bad, fixed, random};

fn main() -> ExitCode {
    let arguments = Arguments::parse(env::args_os().skip(1), OPTIONS);
    status("steps", USAGE, arguments, run)
}

/// Prints complaints and sums, and answers how many cases failed.
fn run(arguments: &Arguments<2>) -> io::Result<u64> {
    let program = path::absolute(&arguments.program)?;
    let [files, seed] = arguments.numbers;
    let files = (0..files).map(|place| random::case(seed.wrapping_add(place)));
    let cases = fixed::cases().into_iter().chain(bad::cases()).chain(files);
    let (mut passed, mut failed) = (0, 0);
    for case in cases {
        match case.put_to(&program)? {
            None => passed += 1,
            Some(complaint) => {
                print!("{complaint}");
                failed += 1;
            }
        }
    }
    println!("{passed} passed, {failed} failed");
    Ok(failed)
}
