//! Programs that are right and wrong, and the words of the command line.

use std::ffi::OsString;
use std::path::{Path, PathBuf};
use std::process::{Command, Output};

use explain::arguments::OPTIONS;
use explain::case::Case;
use explain::said::Said;
use explain::sums::TO_REACH;
use sampling::arguments::Arguments;

/// What is wrong with a line for the shell that is to print and to say this.
fn complaint(line: &'static [&'static str; 2]) -> Option<String> {
    let case = Case {
        name: "one".to_string(),
        arguments: line,
        input: b"steps".to_vec(),
        said: Said {
            out: "1 command 3 begins\n".to_string(),
            errors: "explain: 1 frame, 1 ok, 0 refused\n".to_string(),
        },
    };
    case.put_to(Path::new("/bin/sh")).unwrap()
}

#[test]
fn what_is_right_is_not_complained_of() {
    let right = &[
        "-c",
        "cat >/dev/null; echo 1 command 3 begins; echo explain: 1 frame, 1 ok, 0 refused >&2",
    ];
    assert_eq!(complaint(right), None);
}

#[test]
fn one_wrong_character_is_found() {
    let wrong = &[
        "-c",
        "echo 1 command 2 begins; echo explain: 1 frame, 1 ok, 0 refused >&2",
    ];
    let text = "differs: one\n  line 1, column 11\n  expected: 1 command 3 begins\\n\n  \
                found:    1 command 2 begins\\n\n";
    assert_eq!(complaint(wrong).unwrap(), text);
}

#[test]
fn a_wrong_last_line_and_a_wrong_status_are_found() {
    let wrong = &["-c", "echo 1 command 3 begins; exit 3"];
    let text = "differs: one\n  status: exit status: 3\n  on standard error\n  \
                line 1, column 1\n  expected: explain: 1 frame, 1 ok, 0 refused\\n\n  \
                found:    (the output has ended)\n";
    assert_eq!(complaint(wrong).unwrap(), text);
}

fn run(words: &[&str]) -> Output {
    Command::new(env!("CARGO_BIN_EXE_explain"))
        .args(words)
        .output()
        .unwrap()
}

#[test]
fn a_program_that_says_nothing_fails_everywhere_and_every_form_is_reached() {
    let output = run(&["/bin/true"]);
    assert_eq!(output.status.code(), Some(1));
    let text = String::from_utf8_lossy(&output.stdout);
    let last = text.lines().last().unwrap();
    let reached = format!("{} passed, ", TO_REACH.len());
    assert!(last.starts_with(&reached), "{last}");
    assert!(!text.contains("never reached"));
}

#[test]
fn forms_that_are_not_reached_fail() {
    let output = run(&["/bin/true", "--journals", "0"]);
    let text = String::from_utf8_lossy(&output.stdout);
    assert!(text.contains("\nnever reached: \" ends: 1 record, 1 byte\\n\"\n"));
}

#[test]
fn what_cannot_be_run_is_no_failure_of_a_case() {
    assert_eq!(run(&["/nowhere/explain"]).status.code(), Some(2));
    assert_eq!(run(&[]).status.code(), Some(2));
}

#[test]
fn the_words_of_the_command_line() {
    let parse = |words: &[&str]| Arguments::parse(words.iter().map(OsString::from), OPTIONS);
    let arguments = Arguments {
        program: PathBuf::from("a/b"),
        numbers: [7, 9],
    };
    assert_eq!(
        parse(&["--seed", "9", "a/b", "--journals", "7"]),
        Some(arguments)
    );
    for words in [&[][..], &[""], &["a", "b"], &["a", "--seed"], &["--help"]] {
        assert_eq!(parse(words), None, "{words:?}");
    }
}
