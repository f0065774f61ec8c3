//! The command line of a test program, and the status that it ends with.

use std::ffi::{OsStr, OsString};
use std::io;
use std::path::PathBuf;
use std::process::ExitCode;

/// The program to test, and the numbers of the options.
#[derive(Debug, PartialEq, Eq)]
pub struct Arguments<const COUNT: usize> {
    pub program: PathBuf,
    pub numbers: [u64; COUNT],
}

impl<const COUNT: usize> Arguments<COUNT> {
    /// Reads the words after the test program's own name: a path, and options
    /// with a number behind each. An option that is left out has the number
    /// given here. Nothing, if the words are anything else.
    pub fn parse(
        words: impl IntoIterator<Item = OsString>,
        options: [(&str, u64); COUNT],
    ) -> Option<Arguments<COUNT>> {
        let mut words = words.into_iter();
        let mut program = None;
        let mut numbers = options.map(|(_, number)| number);
        while let Some(word) = words.next() {
            if let Some(place) = options.iter().position(|(name, _)| word == *name) {
                numbers[place] = words.next()?.to_str()?.parse().ok()?;
            } else if program.is_none() && is_path(&word) {
                program = Some(PathBuf::from(word));
            } else {
                return None;
            }
        }
        Some(Arguments {
            program: program?,
            numbers,
        })
    }
}

/// Whether a word is neither empty nor an option.
fn is_path(word: &OsStr) -> bool {
    !word.is_empty() && !word.as_encoded_bytes().starts_with(b"-")
}

/// Runs the tests that the arguments ask for; they answer how many failed. The
/// status is 0 if none did and 1 if some did. It is 2, with the usage or the
/// error on standard error, if there are no arguments or the tests cannot be run.
pub fn status<const COUNT: usize>(
    name: &str,
    usage: &str,
    arguments: Option<Arguments<COUNT>>,
    tests: impl FnOnce(&Arguments<COUNT>) -> io::Result<u64>,
) -> ExitCode {
    let Some(arguments) = arguments else {
        eprint!("{usage}");
        return ExitCode::from(2);
    };
    match tests(&arguments) {
        Ok(0) => ExitCode::SUCCESS,
        Ok(_) => ExitCode::FAILURE,
        Err(error) => {
            eprintln!("{name}: {error}");
            ExitCode::from(2)
        }
    }
}
