//! How two outputs are held against each other, and how lines are counted.

use compare::difference;
use compare::tally::{Tally, LETTERS, REFUSALS};
use compare::workers;

/// What is printed of the first difference, line by line.
fn printed(expected: &[u8], found: &[u8]) -> Vec<String> {
    let text = difference::first(expected, found).unwrap().to_string();
    text.lines().map(str::to_string).collect()
}

#[test]
fn equal_outputs_do_not_differ() {
    for output in ["", "\n", "a", "1 B ok\n2 B no 22\n"] {
        assert!(difference::first(output.as_bytes(), output.as_bytes()).is_none());
    }
}

#[test]
fn the_first_of_several_differences_is_shown() {
    assert_eq!(
        printed(b"1 B ok\n2 E ok 0 0\n3 B ok\n", b"1 B ok\n2 E ok 1 0\n"),
        [
            "  line 2, column 8",
            "  expected: 2 E ok 0 0\\n",
            "  found:    2 E ok 1 0\\n",
        ]
    );
}

#[test]
fn bytes_that_are_no_text_are_made_visible() {
    assert_eq!(
        printed(b"1 B ok\n", b"1 B\xff\0"),
        [
            "  line 1, column 4",
            "  expected: 1 B ok\\n",
            "  found:    1 B\\xff\\x00",
        ]
    );
}

#[test]
fn of_a_long_line_the_part_about_the_difference_is_shown() {
    let expected = ["a".repeat(1_000), "b".repeat(1_000)].concat();
    let found = ["a".repeat(1_000), "c".repeat(10)].concat();
    let front = "a".repeat(40);
    assert_eq!(
        printed(expected.as_bytes(), found.as_bytes()),
        [
            "  line 1, column 1001".to_string(),
            format!("  expected: ...{front}{}...", "b".repeat(40)),
            format!("  found:    ...{front}cccccccccc"),
        ]
    );
}

#[test]
fn lines_are_counted_by_letter_and_number() {
    let log = b"1 B ok\n2 F ok 1 0 00\n3 F ok 0 0 -\n4 F no 21\n5 ? no 2\n";
    let writes = b"1 W no 24\n2 W no 9\n3 F no 24\n";
    let mut tally = Tally::of_log(log);
    tally.add(&Tally::of_log(b"1 E no 21\n"));
    tally.add(&Tally::of_log(writes));
    tally.add(&Tally::of_log(b"input too long\n"));
    assert_eq!(tally.frames, 9);
    assert_eq!(
        LETTERS.map(|letter| tally.accepted(letter)),
        [1, 2, 0, 0, 0]
    );
    let refused = REFUSALS.map(|number| tally.refused(number));
    assert_eq!(refused, [0, 1, 0, 0, 0, 1, 2, 0, 0, 2]);
    let missing = tally.missing();
    assert_eq!(
        missing[..4],
        [
            "an accepted E",
            "an accepted H",
            "an accepted W",
            "refusal 1"
        ]
    );
    assert_eq!(missing.len(), 11);
    assert_eq!(
        missing[9..],
        ["refusal 21 of an own write", "refusal 23 of an own write"]
    );
}

#[test]
fn shared_work_is_done_once_each_and_comes_in_order() {
    for count in [0, 1, 2, 1_000] {
        let squares: Vec<u64> = (0..count).map(|number| number * number).collect();
        assert_eq!(workers::share(count, |number| number * number), squares);
    }
}
