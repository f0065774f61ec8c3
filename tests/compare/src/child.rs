//! The program under test as a child process.

use std::io::{self, Write};
use std::path::Path;
use std::process::{Command, Output, Stdio};
use std::thread;

/// Runs a program with arguments on an input and waits for its end.
pub fn run(program: &Path, arguments: &[&str], input: &[u8]) -> io::Result<Output> {
    let mut child = Command::new(program)
        .args(arguments)
        .stdin(Stdio::piped())
        .stdout(Stdio::piped())
        .stderr(Stdio::piped())
        .spawn()
        .map_err(|error| named(program, error))?;
    let stdin = child.stdin.take();
    thread::scope(|scope| {
        scope.spawn(move || feed(stdin, input));
        child.wait_with_output()
    })
}

/// The error with the program's name before it.
fn named(program: &Path, error: io::Error) -> io::Error {
    io::Error::new(error.kind(), format!("{}: {error}", program.display()))
}

/// Hands over the input and closes the pipe. A program may stop reading before
/// the end, so that an error says nothing against it.
fn feed(stdin: Option<impl Write>, input: &[u8]) {
    if let Some(mut stdin) = stdin {
        stdin.write_all(input).ok();
    }
}
