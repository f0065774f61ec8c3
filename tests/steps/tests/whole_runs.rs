//! Runs over programs that are wrong, which must be found out, and the words of
//! the command line.

use std::ffi::OsString;
use std::path::PathBuf;
use std::process::{Command, Output};

use sampling::arguments::Arguments;
use steps::arguments::OPTIONS;
use steps::case::{Case, Wanted};
use steps::grammar;
use steps::{bad, random};

fn run(words: &[&str]) -> Output {
    Command::new(env!("CARGO_BIN_EXE_steps"))
        .args(words)
        .output()
        .unwrap()
}

fn last_line(output: &Output) -> String {
    let text = String::from_utf8_lossy(&output.stdout);
    text.lines().last().unwrap_or_default().to_string()
}

#[test]
fn a_program_that_writes_nothing_fails_everywhere() {
    let output = run(&["/bin/true", "--files", "20"]);
    assert_eq!(output.status.code(), Some(1));
    let line = last_line(&output);
    assert!(line.starts_with("0 passed, "), "{line}");
}

#[test]
fn a_program_that_repeats_its_input_fails() {
    assert_eq!(run(&["/bin/cat", "--files", "5"]).status.code(), Some(1));
}

#[test]
fn what_cannot_be_run_is_no_failure_of_a_case() {
    assert_eq!(run(&["/nowhere/framewriter"]).status.code(), Some(2));
    assert_eq!(run(&[]).status.code(), Some(2));
}

fn text_of(case: &Case) -> &str {
    match &case.said {
        Wanted::Text(text) => text,
        Wanted::Start(start) => start,
    }
}

#[test]
fn the_file_of_a_seed_is_always_the_same() {
    assert_eq!(random::case(7).input, random::case(7).input);
    assert!(bad::cases().len() > 100);
}

#[test]
fn random_files_have_every_fault_and_several_in_one_file() {
    let cases: Vec<Case> = (0..1_000).map(random::case).collect();
    let count = |wanted: &dyn Fn(&str) -> bool| {
        let texts = cases.iter().map(text_of);
        texts.filter(|text| wanted(text)).count()
    };
    for reason in REASONS {
        let count = count(&|text| text.contains(&format!(": {reason}: ")));
        assert!(count > 5, "{reason}: {count}");
    }
    for number in [4, 6, 11] {
        let reason = grammar::refusal(number);
        let count = count(&|text| text.contains(&format!(": {reason}: ")));
        assert!(count > 20, "{reason}: {count}");
    }
    let several = count(&|text| text.lines().count() > 4);
    assert!(several > 200, "{several}");
    let good = count(&|text| text.ends_with(" bytes\n"));
    assert!((450..700).contains(&good), "{good}");
    let long = count(&|text| text.contains("more than 32768 bytes"));
    assert!(long > 20, "{long}");
    let cut = count(&|text| text.contains("...\n"));
    assert!(cut > 50, "{cut}");
}

const REASONS: [&str; 9] = [
    grammar::LETTER,
    grammar::MISSING,
    grammar::MORE,
    grammar::NUMBER,
    grammar::HEX,
    grammar::ODD,
    grammar::MARK,
    grammar::NOTHING,
    grammar::NO_STEP,
];

#[test]
fn the_words_of_the_command_line() {
    let parse = |words: &[&str]| Arguments::parse(words.iter().map(OsString::from), OPTIONS);
    let arguments = Arguments {
        program: PathBuf::from("a/b"),
        numbers: [7, 9],
    };
    assert_eq!(
        parse(&["--seed", "9", "a/b", "--files", "7"]),
        Some(arguments)
    );
    for words in [&[][..], &[""], &["a", "b"], &["a", "--seed"], &["--help"]] {
        assert_eq!(parse(words), None, "{words:?}");
    }
}
