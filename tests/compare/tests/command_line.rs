//! The words of the command line.

use std::ffi::OsString;
use std::path::PathBuf;

use compare::arguments::OPTIONS;
use sampling::arguments::Arguments;

fn parse(words: &[&str]) -> Option<Arguments<3>> {
    Arguments::parse(words.iter().map(OsString::from), OPTIONS)
}

fn arguments(program: &str, journals: u64, seed: u64, frames: u64) -> Option<Arguments<3>> {
    Some(Arguments {
        program: PathBuf::from(program),
        numbers: [journals, seed, frames],
    })
}

#[test]
fn a_program_alone_gets_3000_journals_from_seed_0() {
    assert_eq!(parse(&["./fetchlog"]), arguments("./fetchlog", 3_000, 0, 0));
}

#[test]
fn each_number_is_taken_on_both_sides_of_the_program() {
    let words = [
        "--seed",
        "18446744073709551615",
        "a/b",
        "--frames",
        "1000000",
        "--journals",
        "7",
    ];
    assert_eq!(parse(&words), arguments("a/b", 7, u64::MAX, 1_000_000));
}

#[test]
fn anything_else_is_turned_down() {
    for words in [
        &[][..],
        &[""],
        &["--seed", "1"],
        &["a", "b"],
        &["a", "--seed"],
        &["a", "--seed", "x"],
        &["a", "--seed", "-1"],
        &["a", "--journals", "18446744073709551616"],
        &["a", "--journal", "1"],
        &["a", "--frames=1"],
        &["-h"],
        &["--help"],
    ] {
        assert_eq!(parse(words), None, "{words:?}");
    }
}
