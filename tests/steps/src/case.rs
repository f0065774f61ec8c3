//! One input with what must be written for it, put to the program.

use std::io::{self, Write};
use std::path::Path;
use std::process::{Command, Output, Stdio};
use std::thread;

use crate::expected::expected;

/// An input, what it is called, and what has to be written for it.
#[derive(Debug)]
pub struct Case {
    pub name: String,
    pub arguments: Vec<&'static str>,
    pub input: Vec<u8>,
    pub frames: Vec<u8>,
    pub said: Wanted,
}

/// What must be on standard error.
#[derive(Debug)]
pub enum Wanted {
    /// This text, and nothing else.
    Text(String),
    /// A text that starts so.
    Start(&'static str),
}

impl Wanted {
    fn is_met(&self, found: &[u8]) -> bool {
        match self {
            Wanted::Text(text) => found == text.as_bytes(),
            Wanted::Start(start) => found.starts_with(start.as_bytes()),
        }
    }
}

impl Case {
    /// A case with the frames and the text that are given.
    pub fn new(name: &str, input: impl Into<Vec<u8>>, frames: &[u8], text: &str) -> Case {
        Case {
            name: name.to_string(),
            arguments: vec![],
            input: input.into(),
            frames: frames.to_vec(),
            said: Wanted::Text(text.to_string()),
        }
    }

    /// A case whose frames and text the grammar gives.
    pub fn of_grammar(name: &str, input: impl Into<Vec<u8>>) -> Case {
        let input = input.into();
        let (frames, text) = expected(&input);
        Case::new(name, input, &frames, &text)
    }

    /// Runs the program on the input, and says what is wrong, if anything is.
    /// An error means that the program could not be run.
    pub fn put_to(&self, program: &Path) -> io::Result<Option<String>> {
        let output = self.run(program)?;
        let mut faults = String::new();
        if !output.status.success() {
            faults += &format!("  status: {}\n", output.status);
        }
        if output.stdout != self.frames {
            faults += &format!(
                "  frames: {} bytes, and {} are right; the first difference is at {}\n",
                output.stdout.len(),
                self.frames.len(),
                first_difference(&output.stdout, &self.frames)
            );
        }
        if !self.said.is_met(&output.stderr) {
            faults += &self.unmet(&output.stderr);
        }
        Ok(Some(format!("wrong: {}\n{faults}", self.name)).filter(|_| !faults.is_empty()))
    }

    /// What was wanted on standard error and what is there, from the first line
    /// on that is not the same.
    fn unmet(&self, found: &[u8]) -> String {
        let wanted = match &self.said {
            Wanted::Text(text) => text.as_bytes(),
            Wanted::Start(start) => start.as_bytes(),
        };
        let equal = first_difference(found, wanted);
        let newline = wanted[..equal].iter().rposition(|byte| *byte == b'\n');
        let from = newline.map_or(0, |place| place + 1);
        format!(
            "  wanted on standard error: {:?}\n  found: {:?}\n",
            shown(&wanted[from..]),
            shown(&found[from..])
        )
    }

    fn run(&self, program: &Path) -> io::Result<Output> {
        let mut child = Command::new(program)
            .args(&self.arguments)
            .stdin(Stdio::piped())
            .stdout(Stdio::piped())
            .stderr(Stdio::piped())
            .spawn()
            .map_err(|error| {
                io::Error::new(error.kind(), format!("{}: {error}", program.display()))
            })?;
        let stdin = child.stdin.take();
        thread::scope(|scope| {
            scope.spawn(move || feed(stdin, &self.input));
            child.wait_with_output()
        })
    }
}

/// Hands over the input and closes the pipe. A program may stop reading before
/// the end, so that an error says nothing against it.
fn feed(stdin: Option<impl Write>, input: &[u8]) {
    if let Some(mut stdin) = stdin {
        stdin.write_all(input).ok();
    }
}

fn first_difference(found: &[u8], right: &[u8]) -> usize {
    found.iter().zip(right).take_while(|(a, b)| a == b).count()
}

/// The front of a text.
fn shown(text: &[u8]) -> String {
    String::from_utf8_lossy(text).chars().take(300).collect()
}
