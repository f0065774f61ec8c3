//! The program as it is run: what it prints, and its status.

use std::fs::File;
use std::io::Write;
use std::process::{Command, Output, Stdio};

/// Runs the program with these words on an input.
fn run(words: &[&str], input: &str) -> Output {
    let mut program = Command::new(env!("CARGO_BIN_EXE_picture"))
        .args(words)
        .stdin(Stdio::piped())
        .stdout(Stdio::piped())
        .stderr(Stdio::piped())
        .spawn()
        .unwrap();
    // The program may end before it has read everything.
    let _ = program.stdin.take().unwrap().write_all(input.as_bytes());
    program.wait_with_output().unwrap()
}

/// The picture of an explanation that is good.
fn picture(input: &str) -> String {
    let output = run(&[], input);
    assert_eq!(String::from_utf8_lossy(&output.stderr), "");
    assert_eq!(output.status.code(), Some(0));
    let picture = String::from_utf8(output.stdout).unwrap();
    assert_well_formed(&picture);
    picture
}

/// Fails unless every element that is opened is closed in its turn, and no `<`
/// or `&` stands where none may.
fn assert_well_formed(picture: &str) {
    let mut open = vec![];
    let mut pieces = picture.split('<');
    assert_eq!(pieces.next(), Some(""));
    for piece in pieces {
        let (tag, text) = piece.split_once('>').expect("a tag ends");
        let name = tag.split([' ', '/']).find(|name| !name.is_empty());
        if tag.starts_with('/') {
            assert_eq!(open.pop(), name);
        } else if !tag.ends_with('/') {
            open.extend(name);
        }
        assert!(!text.contains('>'), "{piece}");
        let mut entities = text.split('&');
        entities.next();
        assert!(
            entities.all(|entity| ["amp;", "lt;", "gt;", "quot;", "apos;"]
                .iter()
                .any(|known| entity.starts_with(known)))
        );
    }
    assert!(open.is_empty());
}

/// Fails unless the program told so, with this status and no picture.
fn assert_told(output: Output, status: i32, told: &str) {
    let error = String::from_utf8_lossy(&output.stderr);
    assert!(error.starts_with(told), "{error}");
    assert_eq!(output.status.code(), Some(status));
    assert!(output.stdout.is_empty());
}

#[test]
fn what_a_run_does_is_in_its_picture() {
    let picture = picture(
        "1 (5: H 64 a04f) the host writes 64+2: a04f\n\
         2 (8: B 3) command 3 begins\n\
         3 (11: F 3 64 1) command 3 fetches 64+1: fresh 64+1 a0; records 64+1\n\
         5 (17: F 3 64 2) command 3 fetches 64+2: replayed 64+1 a0, fresh 65+1 4f; records 64+2\n\
         6 (18: W 3 65 5b6c) command 3 writes 65+2: over 65+1 5b, new 66+1 6c; records 64+3\n\
         7 (19: H 16000 7d) the host writes 16000+1: 7d\n\
         9 (20: E 3) command 3 ends: 1 record, 3 bytes\n\
         10 (21: E 3) command 3 ends: refused (21): the command is not open\n",
    );
    for (part, count) in [
        (
            "<title id=\"title\">A run of 8 frames: 7 ok, 1 refused</title>",
            1,
        ),
        (">a0</text>", 3),
        (">4f</text>", 2),
        (">5b</text>", 1),
        (">6c</text>", 1),
        (">F 3 64 2</text>", 1),
        (">64</text>", 1),
        (">16000</text>", 1),
        (">held 1 record, 3 bytes</text>", 1),
        (">the command is not open</text>", 1),
        (">written over a held byte</text>", 1),
        // One more of each is in the legend.
        ("\"fresh\"", 1 + 2),
        ("\"replayed\"", 1 + 1),
        ("\"host\"", 1 + 3),
        // And one of these in the note on bytes that are written over others.
        ("\"own\"", 1 + 2 + 1),
        ("\"record\"", 1 + 4 + 1),
    ] {
        assert_eq!(picture.matches(part).count(), count, "{part}");
    }
}

#[test]
fn texts_do_not_end_elements() {
    let picture = picture("1 (5: H 64 = </text>&\"'>]]>) the host writes 64+0: nothing\n");
    assert!(picture.contains(">H 64 = &lt;/text&gt;&amp;&quot;&apos;&gt;]]&gt;</text>"));
}

#[test]
fn the_longest_run_of_frames_has_a_picture() {
    let line = |number: u32| match number % 4 {
        0 => format!("{number} command 3 fetches {number}+0: nothing; no records\n"),
        1 => format!("{number} the host writes {}+1: 00\n", number * 7),
        2 => format!("{number} command 3 fetches {number}+4096: refused (21): no\n"),
        _ => format!("{number} command 3 begins\n"),
    };
    let input: String = (1..=6_553).map(line).collect();
    assert!(picture(&input).contains(">6353 more frames are left out</text>"));
}

#[test]
fn a_file_may_be_named() {
    let name = concat!(
        env!("CARGO_MANIFEST_DIR"),
        "/../examples/retire-list.explained"
    );
    let text = std::fs::read_to_string(name).unwrap();
    let output = run(&[name], "");
    assert_eq!(String::from_utf8(output.stdout).unwrap(), picture(&text));
    assert_eq!(run(&["-"], &text).stdout, picture(&text).as_bytes());
}

#[test]
fn bad_input_is_told_and_nothing_drawn() {
    let output = run(&[], "1 command 3 begins\n2 B ok\n");
    let told = "picture: line 2: expected what a frame does, in words, but there is \"B ok\"\n";
    assert_told(output, 1, told);
    assert_told(run(&[], ""), 1, "picture: the input has no line");
    assert_told(run(&["/"], ""), 1, "picture: the input cannot be read: ");
    let told = "picture: \"/no/file\" cannot be opened: ";
    assert_told(run(&["/no/file"], ""), 1, told);
}

#[test]
fn words_that_are_not_known_are_told_with_the_usage() {
    let told = "picture: unknown option \"-x\"\n\nusage: picture";
    assert_told(run(&["-x"], ""), 2, told);
    let told = "picture: one file or option at most\n\nusage: picture";
    assert_told(run(&["x", "-"], ""), 2, told);
    assert_told(run(&["--help", "x"], ""), 2, told);
}

#[test]
fn help_and_version_are_printed() {
    let output = run(&["--help"], "");
    assert!(output.stdout.starts_with(b"usage: picture [EXPLANATION]\n"));
    assert_eq!(output.status.code(), Some(0));
    let output = run(&["--version"], "");
    assert_eq!(output.stdout, b"picture 0.1.0\n");
    assert_eq!(output.status.code(), Some(0));
}

#[test]
fn an_output_that_is_full_is_told() {
    let output = Command::new(env!("CARGO_BIN_EXE_picture"))
        .arg("--help")
        .stdout(File::options().write(true).open("/dev/full").unwrap())
        .output()
        .unwrap();
    assert_told(output, 1, "picture: standard output cannot be written: ");
}
