//! What must be said, held against texts that are written down.

use compare::journals::journal;
use explain::expectations::{self, Expectation};
use explain::journal::frames;
use explain::said::{of_frames, of_steps, Said};
use explain::script::{script, Line};
use sampling::generator::Generator;
use sampling::layout::frame;

/// What must be said of a journal given as frames.
fn said(journal: &[u8]) -> Said {
    of_frames(journal, &frames(journal))
}

#[test]
fn the_worked_example() {
    let worked = said(include_bytes!("../../../examples/worked.frames"));
    assert_eq!(
        worked.out,
        include_str!("../../../examples/worked.explained")
    );
    assert_eq!(worked.errors, "explain: 7 frames, 6 ok, 1 refused\n");
}

#[test]
fn parts_and_records_stand_in_ascending_order() {
    let journal = [
        frame(0, 5, 0, 0, &[]),
        frame(1, 5, 8, 0, &[]),
        frame(3, 0, 8, 4, &[0x0a, 0xb0, 0xcc, 0]),
        frame(1, 5, 10, 1, &[]),
        frame(1, 5, 8, 1, &[]),
        frame(3, 0, 8, 3, &[1, 2, 3]),
        frame(3, 0, 8, 0, &[]),
        frame(1, 5, 10, 0, &[]),
        frame(1, 5, 7, 5, &[]),
        frame(1, 5, 8, 2, &[]),
        frame(2, 5, 0, 0, &[]),
    ]
    .concat();
    let expected = "\
1 command 5 begins
2 command 5 fetches 8+0: nothing; no records
3 the host writes 8+4: 0ab0cc00
4 command 5 fetches 10+1: fresh 10+1 cc; records 10+1
5 command 5 fetches 8+1: fresh 8+1 0a; records 8+1 10+1
6 the host writes 8+3: 010203
7 the host writes 8+0: nothing
8 command 5 fetches 10+0: nothing; records 8+1 10+1
9 command 5 fetches 7+5: fresh 7+1 00, replayed 8+1 0a, fresh 9+1 02, replayed 10+1 cc, fresh 11+1 00; records 7+5
10 command 5 fetches 8+2: replayed 8+2 0a02; records 7+5
11 command 5 ends: 1 record, 5 bytes
";
    let said = said(&journal);
    assert_eq!(said.out, expected);
    assert_eq!(said.errors, "explain: 11 frames, 11 ok, 0 refused\n");
}

#[test]
fn an_own_write_has_parts_as_a_fetch_has() {
    let journal = [
        frame(0, 3, 0, 0, &[]),
        frame(4, 3, 8, 0, &[]),
        frame(1, 3, 16, 2, &[]),
        frame(4, 3, 16, 4, b"abcd"),
        frame(4, 3, 22, 1, b"e"),
        frame(4, 3, 15, 8, b"12345678"),
        frame(4, 3, 17, 2, b"yz"),
        frame(4, 3, 9, 0, &[]),
        frame(1, 3, 14, 5, &[]),
        frame(4, 4, 14, 1, b"x"),
        frame(2, 3, 0, 0, &[]),
    ]
    .concat();
    let expected = "\
1 command 3 begins
2 command 3 writes 8+0: nothing; no records
3 command 3 fetches 16+2: fresh 16+2 0000; records 16+2
4 command 3 writes 16+4: over 16+2 6162, new 18+2 6364; records 16+4
5 command 3 writes 22+1: new 22+1 65; records 16+4 22+1
6 command 3 writes 15+8: new 15+1 31, over 16+4 32333435, new 20+2 3637, over 22+1 38; records 15+8
7 command 3 writes 17+2: over 17+2 797a; records 15+8
8 command 3 writes 9+0: nothing; records 15+8
9 command 3 fetches 14+5: fresh 14+1 00, replayed 15+4 3132797a; records 14+9
10 command 4 writes 14+1: refused (21): the command is not open
11 command 3 ends: 1 record, 9 bytes
";
    assert_eq!(said(&journal).out, expected);
}

#[test]
fn a_fetch_that_touches_a_record_is_joined_with_it() {
    let journal = [
        frame(0, 5, 0, 0, &[]),
        frame(1, 5, 8, 2, &[]),
        frame(1, 5, 10, 2, &[]),
        frame(1, 5, 9, 2, &[]),
        frame(1, 5, 13, 1, &[]),
        frame(1, 5, 12, 0, &[]),
        frame(1, 5, 12, 1, &[]),
        frame(1, 5, 7, 8, &[]),
    ]
    .concat();
    let expected = "\
1 command 5 begins
2 command 5 fetches 8+2: fresh 8+2 0000; records 8+2
3 command 5 fetches 10+2: fresh 10+2 0000; records 8+4
4 command 5 fetches 9+2: replayed 9+2 0000; records 8+4
5 command 5 fetches 13+1: fresh 13+1 00; records 8+4 13+1
6 command 5 fetches 12+0: nothing; records 8+4 13+1
7 command 5 fetches 12+1: fresh 12+1 00; records 8+6
8 command 5 fetches 7+8: fresh 7+1 00, replayed 8+6 000000000000, fresh 14+1 00; records 7+8
";
    assert_eq!(said(&journal).out, expected);
}

#[test]
fn parts_of_random_journals_were_held_and_were_not_by_turns() {
    let kinds = |line: &str| -> Vec<bool> {
        let parts = line.split([':', ',']);
        let kind = |part: &str| match part.split(' ').nth(1) {
            Some("fresh" | "new") => Some(true),
            Some("replayed" | "over") => Some(false),
            _ => None,
        };
        parts.filter_map(kind).collect()
    };
    let mut several = 0;
    for seed in 0..32 {
        for line in said(&journal(seed).bytes).out.lines() {
            let kinds = kinds(line);
            assert!(kinds.windows(2).all(|pair| pair[0] != pair[1]), "{line}");
            several += u64::from(kinds.len() > 1);
        }
    }
    assert!(several > 500, "{several}");
}

#[test]
fn refused_frames_and_an_unreadable_one() {
    let journal = [
        frame(2, 1, 0, 0, &[]),
        frame(0, 1, 0, 0, &[]),
        frame(0, 1, 0, 0, &[]),
        frame(1, 1, 16_384, 1, &[]),
        frame(3, 0, 16_383, 2, &[1, 2]),
        frame(4, 2, 0, 1, &[1]),
        vec![0xe0, 0, 0, 0, 0],
    ]
    .concat();
    let expected = "\
1 command 1 ends: refused (21): the command is not open
2 command 1 begins
3 command 1 begins: refused (22): the command is open already
4 command 1 fetches 16384+1: refused (9): the span ends beyond the window
5 the host writes 16383+2: refused (9): the span ends beyond the window
6 command 2 writes 0+1: refused (21): the command is not open
7 an unreadable frame: refused (2): no kind of step has this number
";
    let said = said(&journal);
    assert_eq!(said.out, expected);
    assert_eq!(
        said.errors,
        "explain: 7 frames, 1 ok, 5 refused, 1 unreadable\n"
    );
}

#[test]
fn steps_given_as_frames_are_told() {
    assert_eq!(
        said(b"B 1\n").errors,
        "explain: the input looks like steps; leave --frames out\n\
         explain: 1 frame, 0 ok, 0 refused, 1 unreadable\n"
    );
}

#[test]
fn a_script_has_a_line_for_each_frame() {
    let journal = [
        frame(0, 5, 0, 0, &[]),
        frame(3, 0, 8, 2, &[0x0a, 0xb0]),
        frame(1, 5, 8, 2, &[]),
        frame(4, 5, 8, 0, &[]),
        frame(2, 5, 0, 0, &[]),
        vec![0xe0],
    ]
    .concat();
    let frames = frames(&journal);
    let (text, lines) = script(&frames, 3);
    let steps: Vec<&str> = lines
        .iter()
        .map(|line| line.text.split(" = ").next().unwrap())
        .collect();
    assert_eq!(steps, ["B 5", "H 8 0ab0", "F 5 8 2", "W 5 8", "E 5"]);
    for line in &lines {
        let there = text.lines().nth(line.number - 1).unwrap();
        assert!(there.starts_with(&line.text), "{there}");
    }
    let said = of_steps(&frames, &lines);
    assert_eq!(said.out.lines().count(), 5);
    assert!(said.errors.contains("explain: 5 frames, 5 ok, 0 refused"));
}

#[test]
fn expectations_are_counted_and_failed_ones_are_named() {
    let journal = [
        frame(0, 5, 0, 0, &[]),
        frame(1, 5, 8, 30, &[]),
        frame(2, 5, 0, 0, &[]),
        frame(2, 5, 0, 0, &[]),
    ]
    .concat();
    let lines = [
        (2, "B 5 = ok", Some(("ok", true))),
        (3, "F 5 8 30 = \\", Some(("\\", false))),
        (7, "E 5", None),
        (9, "E 5 = OK", Some(("OK", false))),
    ];
    let lines = lines.map(|(number, text, expectation)| Line {
        number,
        text: text.to_string(),
        expectation: expectation.map(|(text, holds)| Expectation {
            text: text.to_string(),
            holds,
        }),
    });
    let said = of_steps(&frames(&journal), &lines);
    let zeros = "0".repeat(60);
    let out = format!(
        "1 (2: B 5 = ok) command 5 begins\n\
         2 (3: F 5 8 30 = \\x5c) command 5 fetches 8+30: fresh 8+30 {zeros}; records 8+30\n\
         3 (7: E 5) command 5 ends: 1 record, 30 bytes\n\
         4 (9: E 5 = OK) command 5 ends: refused (21): the command is not open\n"
    );
    let errors = format!(
        "explain: line 3: expected \\x5c, but ok 30 0 {}...\n\
         explain: line 9: expected OK, but no 21\n\
         explain: 4 frames, 3 ok, 1 refused, 1 expectation held, 2 failed\n",
        &zeros[8..]
    );
    assert_eq!(said, Said { out, errors });
}

/// The rule for expectations, word by word.
fn holds(expected: &str, answer: &str, is_fetch: bool) -> bool {
    let expected = expected.to_lowercase();
    let expected: Vec<&str> = expected.split(' ').collect();
    let answer: Vec<&str> = answer.split(' ').collect();
    if ["ok", "no"].contains(&expected[0]) {
        answer.starts_with(&expected)
    } else {
        is_fetch && answer[0] == "ok" && expected == answer[answer.len() - 1..]
    }
}

#[test]
fn expectations_hold_by_the_rule() {
    let mut numbers = Generator::new(5);
    let answers = [
        ("ok", false),
        ("ok 9", false),
        ("ok 1 9", false),
        ("ok 4 2", false),
        ("ok 0 0 -", true),
        ("ok 2 1 0ab0cc", true),
        ("no 21", true),
        ("no 9", false),
    ];
    for (answer, is_fetch) in answers {
        let (mut held, mut failed) = (0, 0);
        for _ in 0..1_000 {
            let expectation = expectations::any(&mut numbers, answer, is_fetch);
            let right = holds(&expectation.text, answer, is_fetch);
            assert_eq!(expectation.holds, right, "{answer}: {expectation:?}");
            held += u64::from(right);
            failed += u64::from(!right);
        }
        assert!(held > 600 && failed > 150, "{answer}: {held} {failed}");
    }
}
