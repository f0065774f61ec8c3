//! Each profile over 100 of its journals: that it brings about what it is
//! there for, and not once but often.

use crate::census::{of_profile, Census};

/// The census of 100 journals, all of which are read to the end.
fn readable(profile: &str) -> Census {
    let census = of_profile(profile, 100);
    assert_eq!(census.readable, 100, "{census:?}");
    for number in 1..=5 {
        assert_eq!(census.tally.refused(number), 0, "{census:?}");
    }
    census
}

#[test]
fn small_spans_run_out_of_records() {
    let census = readable("small spans");
    assert!(census.tally.refused(24) > 2_000, "{census:?}");
    assert!(census.tally.accepted('F') > 20_000, "{census:?}");
    assert!(census.filled > 2, "{census:?}");
}

#[test]
fn large_spans_run_out_of_bytes() {
    let census = readable("large spans");
    assert!(census.tally.refused(23) > 1_000, "{census:?}");
    assert!(census.overlapping > 300, "{census:?}");
    assert!(census.nested > 300, "{census:?}");
}

#[test]
fn overlapping_spans_overlap() {
    let census = readable("overlapping spans");
    assert!(census.overlapping > 4_000, "{census:?}");
    assert!(census.stale > 2_000, "{census:?}");
}

#[test]
fn touching_spans_touch() {
    let census = readable("touching spans");
    for count in [census.touch_below, census.touch_above, census.touch_both] {
        assert!(count > 200, "{census:?}");
    }
    assert!(census.overlapping > 2_000, "{census:?}");
}

#[test]
fn single_bytes_close_gaps_and_run_out_of_records() {
    let census = readable("single bytes");
    for count in [census.touch_below, census.touch_above, census.touch_both] {
        assert!(count > 200, "{census:?}");
    }
    assert!(census.tally.refused(24) > 500, "{census:?}");
}

#[test]
fn held_spans_are_touched_on_either_side_on_both_and_at_the_limit() {
    let census = readable("spans that touch held ones");
    for count in [census.touch_below, census.touch_above] {
        assert!(count > 150, "{census:?}");
    }
    assert!(census.touch_both > 5_000, "{census:?}");
    assert!(census.tally.refused(24) > 1_000, "{census:?}");
    assert!(census.empty > 500, "{census:?}");
}

#[test]
fn nested_spans_lie_in_each_other() {
    let census = readable("nested spans");
    assert!(census.nested > 1_500, "{census:?}");
    // An own write is cut short, and so it may overlap another span.
    assert!(census.overlapping < 50, "{census:?}");
}

#[test]
fn empty_spans_are_fetched_inside_at_and_past_the_end() {
    let census = readable("empty spans");
    assert!(census.empty > 10_000, "{census:?}");
    assert!(census.last_byte > 500, "{census:?}");
    assert!(census.tally.refused(9) > 2_000, "{census:?}");
    assert!(census.filled > 2, "{census:?}");
}

#[test]
fn the_end_of_the_window_is_met_and_passed() {
    let census = readable("end of the window");
    assert!(census.last_byte > 1_500, "{census:?}");
    assert!(census.tally.refused(9) > 5_000, "{census:?}");
    assert!(census.above_16_bits > 1_500, "{census:?}");
}

#[test]
fn all_commands_are_open_at_once() {
    let census = readable("all commands");
    assert_eq!(census.most_open, 8, "{census:?}");
    assert!(census.overlapping > 5_000, "{census:?}");
    assert!(census.stale > 3_000, "{census:?}");
}

#[test]
fn held_bytes_are_overwritten_and_replayed() {
    let census = readable("writes over held bytes");
    assert!(census.host_over_held > 2_000, "{census:?}");
    assert!(census.own_over_held > 2_000, "{census:?}");
    assert!(census.own_mixed > 500, "{census:?}");
    assert!(census.stale > 3_000, "{census:?}");
}

#[test]
fn commands_begin_and_end_when_they_must_not() {
    let census = readable("begin and end");
    for letter in ['B', 'E'] {
        assert!(census.tally.accepted(letter) > 3_000, "{census:?}");
    }
    for number in [21, 22] {
        assert!(census.tally.refused(number) > 2_000, "{census:?}");
    }
    assert!(census.filled > 2, "{census:?}");
}

#[test]
fn spans_of_any_size_are_all_over_the_window() {
    let census = readable("spans of any size");
    assert!(census.tally.accepted('F') > 4_000, "{census:?}");
    for number in [9, 21, 22, 23] {
        assert!(census.tally.refused(number) > 50, "{census:?}");
    }
    assert_eq!(census.most_open, 8, "{census:?}");
}

#[test]
fn commands_are_brought_to_both_limits() {
    let census = readable("limits of a command");
    for number in [23, 24] {
        assert!(census.tally.refused(number) > 200, "{census:?}");
    }
    assert!(census.stale > 100, "{census:?}");
}

#[test]
fn every_kind_of_unreadable_frame_occurs() {
    let census = of_profile("unreadable frames", 100);
    assert_eq!(census.readable, 0, "{census:?}");
    for number in 1..=5 {
        assert!(census.tally.refused(number) > 5, "{census:?}");
    }
}

#[test]
fn mixed_journals_have_everything() {
    let census = of_profile("mixed", 100);
    assert!((60..90).contains(&census.readable), "{census:?}");
    assert_eq!(census.tally.missing(), [""; 0], "{census:?}");
    for count in [
        census.overlapping,
        census.touch_below,
        census.touch_above,
        census.touch_both,
        census.nested,
        census.empty,
        census.last_byte,
        census.above_16_bits,
        census.host_over_held,
        census.own_over_held,
        census.own_mixed,
        census.stale,
    ] {
        assert!(count > 100, "{census:?}");
    }
    assert_eq!(census.most_open, 8, "{census:?}");
}
