//! The program itself: standard input to standard output, and its answer to
//! a command line argument.

use std::io::Write;
use std::process::{Command, Output, Stdio};

use crate::log_program::{longest_input, longest_log};

/// Runs the program with these arguments and this standard input.
fn run_program(arguments: &[&str], input: &[u8]) -> Output {
    let mut child = Command::new(env!("CARGO_BIN_EXE_fetchlog-reference"))
        .args(arguments)
        .stdin(Stdio::piped())
        .stdout(Stdio::piped())
        .stderr(Stdio::piped())
        .spawn()
        .unwrap();
    let mut stdin = child.stdin.take().unwrap();
    let bytes = input.to_vec();
    let writer = std::thread::spawn(move || stdin.write_all(&bytes));
    let output = child.wait_with_output().unwrap();
    writer.join().unwrap().ok();
    output
}

/// Runs the program without arguments and gives its standard output.
fn printed(input: &[u8]) -> String {
    let output = run_program(&[], input);
    assert!(output.status.success());
    assert_eq!(output.stderr, b"");
    String::from_utf8(output.stdout).unwrap()
}

#[test]
fn the_program_prints_the_worked_log() {
    let frames = include_bytes!("../../examples/worked.frames");
    let log = include_str!("../../examples/worked.log");
    assert_eq!(printed(frames), log);
}

#[test]
fn the_program_prints_nothing_for_empty_input() {
    assert_eq!(printed(&[]), "");
}

#[test]
fn the_program_takes_32768_bytes_and_no_more() {
    let mut input = longest_input();
    assert_eq!(printed(&input), longest_log());
    input.push(0);
    assert_eq!(printed(&input), "input too long\n");
    assert_eq!(printed(&[0; 1_000_000]), "input too long\n");
}

#[test]
fn any_argument_brings_the_usage_and_status_2() {
    for arguments in [&["--help"][..], &[""], &["-"], &["a", "b"]] {
        let output = run_program(arguments, &[]);
        assert_eq!(output.status.code(), Some(2));
        assert_eq!(output.stdout, b"");
        let usage = String::from_utf8(output.stderr).unwrap();
        assert!(usage.starts_with("usage: fetchlog-reference"));
    }
}
