//! Inputs that are run every time, with what must be written for them.

use crate::case::{Case, Wanted};
use crate::expected::LONGEST;
use crate::step::{Step, EXPECTATIONS};

const WORKED_STEPS: &str = include_str!("../../../examples/worked.steps");
const WORKED_FRAMES: &[u8] = include_bytes!("../../../examples/worked.frames");

/// Words that are no option, and what is said first.
const ARGUMENTS: [(&str, &str); 3] = [
    ("-h", "framewriter: unknown option -h\nusage: framewriter "),
    (
        "--nothing",
        "framewriter: unknown option --nothing\nusage: framewriter ",
    ),
    (
        "-\t\\",
        "framewriter: unknown option -\\x09\\x5c\nusage: framewriter ",
    ),
];

/// All fixed cases.
pub fn cases() -> Vec<Case> {
    let mut cases = good();
    cases.extend(EXPECTATIONS.map(with_expectation));
    cases.extend(bad());
    cases.extend([32_767, 32_768, 32_769].map(journal));
    cases.extend([longest(), too_long()]);
    cases.extend(ARGUMENTS.map(with_argument));
    cases
}

/// Inputs without a bad line.
fn good() -> Vec<Case> {
    vec![
        framed("the worked example", WORKED_STEPS, WORKED_FRAMES, 7),
        framed("the empty input", "", &[], 0),
        framed("a newline", "\n", &[], 0),
        framed("blanks and comments", " \t\r\n#\n  # B 1\n\n", &[], 0),
        framed("one frame", "B 1\n", &[4, 0, 0, 0, 0], 1),
        framed("a last line with no newline", "B 1\nE 1", &begin_end(), 2),
        framed(
            "lines that end as on other systems",
            "B 1\r\nE 1\r\n",
            &begin_end(),
            2,
        ),
        framed(
            "a comment right behind a field",
            "B 1#x\nE 1#\n",
            &begin_end(),
            2,
        ),
        framed(
            "an equals sign in a comment",
            "B 1 # =\n# = 04\nE 1#=\n",
            &begin_end(),
            2,
        ),
        framed(
            "a byte order mark in a comment",
            "B 1\n#\u{feff}\nE 1 # \u{feff}",
            &begin_end(),
            2,
        ),
        framed(
            "both cases",
            "H 0 aAbBcCdDeEfF",
            &host(&[0xaa, 0xbb, 0xcc, 0xdd, 0xee, 0xff]),
            1,
        ),
        framed(
            "no data, and a dash",
            "H 0\nH 0 -\nH 0 - # x\nH 0=ok\nH 0 -=ok",
            &host(&[]).repeat(5),
            5,
        ),
        framed(
            "leading zeros",
            "B 0000000000000000000000001\nE 01\n",
            &begin_end(),
            2,
        ),
    ]
}

/// Inputs with bad lines, and all that is said of them.
fn bad() -> Vec<Case> {
    vec![
        refused(
            "a comment before the last field",
            "B 1#x\nE#\n1",
            "framewriter: line 2: a field is missing: E#\n\
             framewriter: line 3: no kind of step has this letter: 1\n\
             framewriter: 2 bad lines, nothing is written\n",
        ),
        refused(
            "a bad last line with no newline",
            "B 1\n\nE",
            "framewriter: line 3: a field is missing: E\n\
             framewriter: 1 bad line, nothing is written\n",
        ),
        refused(
            "bytes that are not shown as they are",
            "B 1\t2\r\nB \\\nB ~\u{7f}\u{0}\u{1b}\n",
            "framewriter: line 1: a field too many: B 1\\x092\\x0d\n\
             framewriter: line 2: not a decimal number: B \\x5c\n\
             framewriter: line 3: not a decimal number: B ~\\x7f\\x00\\x1b\n\
             framewriter: the input looks like frames; fetchlog runs frames\n\
             framewriter: 3 bad lines, nothing is written\n",
        ),
        refused(
            "a byte order mark before the first line",
            "\u{feff}B 1\r\nE 1\r\n",
            "framewriter: line 1: a byte order mark stands before the step: \\xef\\xbb\\xbfB 1\\x0d\n\
             framewriter: 1 bad line, nothing is written\n",
        ),
        refused(
            "60 bytes and 61",
            "12345678901234567890123456789012345678901234567890123456789 \n\
             12345678901234567890123456789012345678901234567890123456789  \n\
             1234567890123456789012345678901234567890123456789012345678\u{fc}\u{fc}",
            "framewriter: line 1: no kind of step has this letter: \
             12345678901234567890123456789012345678901234567890123456789 \n\
             framewriter: line 2: no kind of step has this letter: \
             12345678901234567890123456789012345678901234567890123456789 ...\n\
             framewriter: line 3: no kind of step has this letter: \
             1234567890123456789012345678901234567890123456789012345678\\xc3\\xbc...\n\
             framewriter: 3 bad lines, nothing is written\n",
        ),
    ]
}

/// An input with so many steps, all of which have frames.
fn framed(name: &str, input: &str, frames: &[u8], count: usize) -> Case {
    let length = frames.len();
    let warning = if length > 32_768 { WARNING } else { "" };
    let plural = if count == 1 { "" } else { "s" };
    let text = format!("{warning}framewriter: {count} frame{plural}, {length} bytes\n");
    Case::new(name, input, frames, &text)
}

fn refused(name: &str, input: &str, text: &str) -> Case {
    Case::new(name, input, &[], text)
}

/// An expectation is passed over.
fn with_expectation(expected: &str) -> Case {
    let input = format!("B 1 = {expected}\nE 1={expected}#\n");
    framed(&format!("{expected:?} expected"), &input, &begin_end(), 2)
}

/// The frames of `B 1` and `E 1`.
fn begin_end() -> Vec<u8> {
    vec![0x04, 0, 0, 0, 0, 0x44, 0, 0, 0, 0]
}

/// The frame of a host write at address 0.
fn host(data: &[u8]) -> Vec<u8> {
    let step = Step {
        kind: 3,
        data: data.to_vec(),
        ..Step::default()
    };
    step.frame().expect("a short write has a frame")
}

/// What is said before the last line of frames that `fetchlog` does not take.
const WARNING: &str = "framewriter: more than 32768 bytes, which fetchlog refuses\n";

/// Begins, and a host write that makes their frames so many bytes long.
fn journal(length: usize) -> Case {
    let (begins, more) = (length / 5 - 1, length % 5);
    let data = vec![0xab; more];
    let input = "B 0\n".repeat(begins) + "H 0 " + &"ab".repeat(more) + "\n";
    let frames = [vec![0; 5 * begins], host(&data)].concat();
    framed(&format!("{length} bytes"), &input, &frames, begins + 1)
}

/// Writes of 4,096 bytes up to the longest input, and a comment at its end.
fn longest() -> Case {
    let data: Vec<u8> = (0..4_096).map(|place| (place * 7) as u8).collect();
    let step = Step {
        kind: 4,
        command: 7,
        address: 65_535,
        data,
        ..Step::default()
    };
    let line = step.plain_line() + "\n";
    let frame = step.frame().expect("a write of 4,096 bytes has a frame");
    let count = LONGEST / line.len();
    let mut input = line.repeat(count);
    input += &"#".repeat(LONGEST - input.len());
    framed("the longest input", &input, &frame.repeat(count), count)
}

/// Of one byte more nothing is written.
fn too_long() -> Case {
    let input = "B 1\n".repeat(LONGEST / 4) + "\n";
    let text = "framewriter: the input is above 1048576 bytes, nothing is written\n";
    refused("an input that is too long", &input, text)
}

/// Given a word that is no option the program says so and how it is used.
fn with_argument((argument, start): (&'static str, &'static str)) -> Case {
    Case {
        arguments: vec![argument],
        said: Wanted::Start(start),
        ..refused(&format!("the argument {argument:?}"), "B 1\n", "")
    }
}
