//! The cases that are the same in every run.

use std::collections::BTreeSet;

use compare::case::Case;
use compare::fixed;
use reference::log;

fn case(name: &str) -> Case {
    let mut cases = fixed::cases().into_iter();
    cases.find(|case| case.name == name).unwrap()
}

#[test]
fn the_reference_gives_the_logs_that_are_written_down() {
    for case in fixed::cases() {
        assert_eq!(
            log::run(&case.input).as_bytes(),
            case.expected,
            "{}",
            case.name
        );
    }
}

#[test]
fn no_two_have_the_same_name() {
    let cases = fixed::cases();
    let names: BTreeSet<&str> = cases.iter().map(|case| case.name.as_str()).collect();
    assert_eq!(names.len(), cases.len());
}

#[test]
fn the_longest_input_is_run_to_its_last_byte() {
    let full = case("32,768 bytes");
    assert_eq!(full.input.len(), 32_768);
    let text = String::from_utf8(full.expected).unwrap();
    assert!(text.lines().last().unwrap().contains(" H ok "));
    assert!(text.lines().count() > 4_000);

    let cut = case("32,768 bytes with 3 for the last frame");
    assert_eq!(cut.input.len(), 32_768);
    assert!(cut.expected.ends_with(b"6553 B no 22\n6554 ? no 1\n"));
}

#[test]
fn longer_input_is_not_run() {
    for (name, length) in [
        ("32,769 bytes", 32_769),
        ("32,769 zeros", 32_769),
        ("100,000 bytes", 100_000),
    ] {
        let case = case(name);
        assert_eq!(case.input.len(), length);
        assert_eq!(case.expected, b"input too long\n");
    }
}

#[test]
fn three_inputs_are_cut_at_every_length() {
    for (name, shortest) in [
        ("the worked example", 41),
        ("a journal of begins and ends", 150),
        ("a journal with writes", 350),
    ] {
        let prefix = format!("{name}, the first ");
        let cases = fixed::cases().into_iter();
        let cuts: Vec<Case> = cases
            .filter(|case| case.name.starts_with(&prefix))
            .collect();
        assert!(cuts.len() > shortest, "{name}: {}", cuts.len());
        let longest = &cuts.last().unwrap().input;
        for (length, cut) in cuts.iter().enumerate() {
            assert_eq!(cut.input, longest[..length]);
        }
        assert!(!log::run(longest).contains('?'), "{name}");
    }
}

#[test]
fn changed_bits_bring_the_refusals_of_the_reader() {
    let changed = fixed::cases();
    let changed = changed
        .iter()
        .filter(|case| case.name.contains(" with bit "));
    let logs: Vec<String> = changed.map(|case| log::run(&case.input)).collect();
    assert_eq!(logs.len(), 200);
    for (number, least) in [(2, 5), (3, 80), (4, 3), (5, 2)] {
        let end = format!("4 ? no {number}\n");
        let count = logs.iter().filter(|log| log.ends_with(&end)).count();
        assert!(count >= least, "{number}: {count}");
    }
}
