//! The program as a whole, put to a log program that is right and to some
//! that are not. The wrong ones are scripts, which find the right one through
//! a variable.

use std::ffi::OsStr;
use std::process::{Command, Output};

const RIGHT: &str = env!("CARGO_BIN_EXE_fetchlog-right");

/// How many things the random journals must reach, each of which is counted
/// as passed or failed.
const TO_REACH: u64 = 19;

/// What a run of `compare` left.
struct Run {
    status: Option<i32>,
    out: String,
    errors: String,
}

impl Run {
    fn new<Word: AsRef<OsStr>>(words: &[Word]) -> Run {
        let Output {
            status,
            stdout,
            stderr,
        } = Command::new(env!("CARGO_BIN_EXE_compare"))
            .args(words)
            .env("RIGHT_FETCHLOG", RIGHT)
            .output()
            .unwrap();
        Run {
            status: status.code(),
            out: String::from_utf8(stdout).unwrap(),
            errors: String::from_utf8(stderr).unwrap(),
        }
    }

    /// Puts one of the wrong programs to the test with 16 journals, one of
    /// each profile. It must fail.
    fn of_wrong(script: &str) -> Run {
        let path = format!("{}/tests/faulty/{script}", env!("CARGO_MANIFEST_DIR"));
        let run = Run::new(&[path.as_str(), "--journals", "16", "--seed", "800"]);
        assert_eq!(run.status, Some(1), "{}", run.errors);
        assert!(run.sums().1 > TO_REACH, "{}", run.out);
        run
    }

    /// The numbers of the last line: passed and failed.
    fn sums(&self) -> (u64, u64) {
        let last = self.out.lines().last().unwrap();
        let numbers = last.strip_suffix(" failed").unwrap();
        let (passed, failed) = numbers.split_once(" passed, ").unwrap();
        (passed.parse().unwrap(), failed.parse().unwrap())
    }

    /// The number behind some words at the front of a line.
    fn number(&self, words: &str) -> u64 {
        let rest = self.out.lines().find_map(|line| line.strip_prefix(words));
        let digits = rest.unwrap().split(';').next().unwrap();
        digits.parse().unwrap()
    }

    /// How many cases were complained of.
    fn wrong(&self) -> u64 {
        self.out.matches("differs: ").count() as u64
    }

    /// The lines of the complaint about a case.
    fn complaint(&self, case: &str) -> Vec<&str> {
        let head = format!("differs: {case}");
        let mut lines = self.out.lines().skip_while(|line| *line != head);
        assert!(lines.next().is_some(), "no '{head}' in:\n{}", self.out);
        lines.take_while(|line| line.starts_with("  ")).collect()
    }
}

#[test]
fn the_reference_passes_and_everything_is_reached() {
    let run = Run::new(&[RIGHT, "--journals", "420"]);
    assert_eq!(run.status, Some(0), "{}", run.out);
    assert_eq!(run.errors, "");
    assert_eq!(run.number("random journals compared: "), 420);
    let fixed = run.number("fixed cases compared: ");
    assert_eq!(run.sums(), (fixed + 420 + TO_REACH, 0));
    for name in ["B", "F", "E", "H", "W"] {
        assert!(run.number(&format!("  {name}: ")) > 0);
    }
    for number in 1..=5 {
        assert!(run.number(&format!("  {number} ?: ")) > 0);
    }
    for name in ["9 F", "9 H", "9 W", "21 W", "22 B", "23 W", "24 W"] {
        assert!(run.number(&format!("  {name}: ")) > 0);
    }
}

#[test]
fn two_runs_print_the_same() {
    let words = [RIGHT, "--journals", "42", "--seed", "9"];
    assert_eq!(Run::new(&words).out, Run::new(&words).out);
}

#[test]
fn a_number_of_frames_is_reached() {
    let few = Run::new(&[RIGHT, "--journals", "1"]);
    assert!(few.number("frames compared: ") < 50_000);
    let many = Run::new(&[RIGHT, "--journals", "1", "--frames", "50000"]);
    assert!(many.number("frames compared: ") >= 50_000);
    assert!(many.number("random journals compared: ") > 1);
}

#[test]
fn journals_that_do_not_reach_everything_fail() {
    let run = Run::new(&[RIGHT, "--journals", "1", "--seed", "1"]);
    assert_eq!(run.status, Some(1));
    assert!(run.out.contains("\nnever reached: refusal 24\n"));
    assert!(!run.out.contains("\nnever reached: refusal 23\n"));
    assert!(!run.out.contains("differs"));
    let missing = run.out.matches("never reached").count() as u64;
    assert_eq!(run.sums().1, missing);
}

#[test]
fn one_wrong_character_is_found() {
    let run = Run::of_wrong("one-character.sh");
    assert_eq!(
        run.complaint("the worked example"),
        [
            "  line 5, column 5",
            "  expected: 5 F ok 4 4 0000616263640000\\n",
            "  found:    5 F Ok 4 4 0000616263640000\\n",
        ]
    );
    let complaint = run.complaint("journal of seed 800, profile small spans");
    assert_eq!(complaint[0], "  line 5, column 5");
    assert!(complaint[1].starts_with("  expected: 5 H ok "));
    assert!(complaint[2].starts_with("  found:    5 H Ok "));
    assert_eq!(run.out.matches("differs: journal of seed 8").count(), 16);
    assert!(!run.out.contains("differs: the empty input\n"));
}

#[test]
fn a_missing_newline_is_found() {
    let run = Run::of_wrong("no-last-newline.sh");
    assert_eq!(
        run.complaint("the worked example"),
        [
            "  line 7, column 10",
            "  expected: 7 F no 21\\n",
            "  found:    7 F no 21",
        ]
    );
    assert!(run.out.contains("differs: 32,769 bytes\n"));
    assert!(!run.out.contains("differs: the empty input\n"));
}

#[test]
fn a_line_too_many_is_found() {
    let run = Run::of_wrong("one-line-more.sh");
    assert_eq!(
        run.complaint("the empty input"),
        [
            "  line 1, column 1",
            "  expected: (the output has ended)",
            "  found:    \\n",
        ]
    );
    assert_eq!(run.wrong(), run.number("fixed cases compared: ") + 16);
}

#[test]
fn missing_lines_are_found() {
    let run = Run::of_wrong("three-lines.sh");
    assert_eq!(
        run.complaint("situation K"),
        [
            "  line 4, column 1",
            "  expected: 4 E ok 1 3\\n",
            "  found:    (the output has ended)",
        ]
    );
}

#[test]
fn a_last_line_that_is_not_said_is_found() {
    let run = Run::of_wrong("no-last-line.sh");
    assert_eq!(
        run.complaint("the worked example"),
        [
            "  on standard error",
            "  line 1, column 1",
            "  expected: fetchlog: 7 frames, 6 ok, 1 refused\\n",
            "  found:    (the output has ended)",
        ]
    );
    assert_eq!(run.wrong(), run.number("fixed cases compared: ") + 16);
}

#[test]
fn one_wrong_count_is_found() {
    let run = Run::of_wrong("one-count.sh");
    assert_eq!(
        run.complaint("the worked example"),
        [
            "  on standard error",
            "  line 1, column 27",
            "  expected: fetchlog: 7 frames, 6 ok, 1 refused\\n",
            "  found:    fetchlog: 7 frames, 6 ok, 2 refused\\n",
        ]
    );
    assert!(!run.out.contains("differs: the empty input\n"));
}

#[test]
fn a_wrong_status_is_found() {
    let run = Run::of_wrong("status-three.sh");
    assert_eq!(run.complaint("situation K"), ["  status: exit status: 3"]);
    assert_eq!(run.wrong(), run.number("fixed cases compared: ") + 16);
}

#[test]
fn bad_arguments_bring_the_usage() {
    let cases: [&[&str]; 4] = [&[], &["--help"], &[RIGHT, "--seed"], &[RIGHT, RIGHT]];
    for words in cases {
        let run = Run::new(words);
        assert_eq!(run.status, Some(2));
        assert_eq!(run.out, "");
        assert!(run.errors.starts_with("usage: compare FETCHLOG"));
    }
}

#[test]
fn a_program_that_is_not_there_is_named() {
    let run = Run::new(&["no-such-program"]);
    assert_eq!(run.status, Some(2));
    assert_eq!(run.out, "");
    assert!(run.errors.starts_with("compare: "));
    assert!(run.errors.contains("no-such-program: "));
}
