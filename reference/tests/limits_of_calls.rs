//! Every refusal number that a call can give, with the values on each side of
//! its limit. Broken books (20) have a file of their own.

use crate::scene::{evenly, open_with, Scene};

/// Numbers above 7, among them some whose low bits are those of a command.
const NO_COMMANDS: [u64; 7] = [8, 9, 15, 256 + 3, (1 << 16) + 3, (1 << 32) + 3, u64::MAX];

/// Store lengths other than 32,768.
const WRONG_STORES: [usize; 6] = [0, 4_096, 32_767, 32_769, 65_536, 98_304];

/// Window lengths at which the end of the window is tried out.
const WINDOWS: [usize; 6] = [0, 1, 100, 16_384, 65_535, 65_536];

/// A scene in which all eight commands are open.
fn all_open(window_length: usize) -> Scene {
    let mut scene = Scene::fresh(window_length);
    for command in 0..8 {
        scene.begin(command).unwrap();
    }
    scene
}

/// A scene whose store has the given length, with command 2 open.
fn with_store_of(length: usize) -> Scene {
    let mut scene = Scene::with_open(2);
    scene.store.resize(length, 0x5a);
    scene
}

/// Addresses from which `length` bytes do not lie in a window of that length;
/// with the last of them a sum of 64 bits would wrap.
fn addresses_past(window_length: usize, length: u64) -> Vec<u64> {
    let first = (window_length as u64 + 1).saturating_sub(length);
    let mut addresses = vec![first, first + 1, 1 << 32, u64::MAX];
    addresses.extend((1..=length).map(|back| u64::MAX - back + 1));
    addresses
}

#[test]
fn begin_6_command_above_7() {
    let mut scene = Scene::fresh(64);
    for command in NO_COMMANDS {
        assert_eq!(scene.begin(command), Err(6));
    }
    for command in 0..8 {
        assert_eq!(scene.begin(command), Ok(()));
    }
}

#[test]
fn begin_8_store_not_32768_bytes() {
    for length in WRONG_STORES {
        assert_eq!(with_store_of(length).begin(1), Err(8));
    }
    assert_eq!(with_store_of(32_768).begin(1), Ok(()));
}

#[test]
fn begin_22_command_already_open() {
    for command in 0..8 {
        let mut scene = Scene::fresh(64);
        assert_eq!(scene.begin(command), Ok(()));
        assert_eq!(scene.begin(command), Err(22));
        scene.fetch(command, 10, 5).unwrap();
        assert_eq!(scene.begin(command), Err(22));
        scene.end(command).unwrap();
        assert_eq!(scene.begin(command), Ok(()));
    }
}

#[test]
fn begin_opens_without_records_and_zeroes_only_its_own_part() {
    for command in 0..8usize {
        let mut scene = Scene::fresh(64);
        let mut expected = scene.clone();
        expected.book.commands[command].open = true;
        expected.store[4_096 * command..4_096 * command + 4_096].fill(0);
        assert_eq!(scene.begin(command as u64), Ok(()));
        assert!(scene == expected);
    }
}

#[test]
fn end_6_command_above_7() {
    let mut scene = all_open(64);
    for command in NO_COMMANDS {
        assert_eq!(scene.end(command), Err(6));
    }
    for command in 0..8 {
        assert_eq!(scene.end(command), Ok((0, 0)));
    }
}

#[test]
fn end_8_store_not_32768_bytes() {
    for length in WRONG_STORES {
        assert_eq!(with_store_of(length).end(2), Err(8));
    }
    assert_eq!(with_store_of(32_768).end(2), Ok((0, 0)));
}

#[test]
fn end_21_command_not_open() {
    for command in 0..8 {
        let mut scene = Scene::fresh(64);
        assert_eq!(scene.end(command), Err(21));
        scene.begin(command).unwrap();
        assert_eq!(scene.end(command), Ok((0, 0)));
        assert_eq!(scene.end(command), Err(21));
    }
}

#[test]
fn end_closes_and_zeroes_only_its_own_part() {
    for command in 0..8usize {
        let mut scene = Scene::with_records(command as u64, &[(3, 5), (9, 2), (65_535, 1)]);
        let mut expected = scene.clone();
        expected.book = Scene::fresh(0).book;
        expected.store[4_096 * command..4_096 * command + 4_096].fill(0);
        assert_eq!(scene.end(command as u64), Ok((3, 8)));
        assert!(scene == expected);
    }
}

#[test]
fn fetch_4_length_above_4096() {
    let mut scene = all_open(65_536);
    scene.destination.resize(65_536, 0);
    for length in [4_097, 4_098, 8_191, 65_536, 1 << 32, u64::MAX] {
        assert_eq!(scene.fetch(0, 0, length), Err(4));
    }
    assert_eq!(scene.fetch(0, 0, 4_096), Ok((4_096, 0)));
}

#[test]
fn fetch_6_command_above_7() {
    let mut scene = all_open(64);
    for command in NO_COMMANDS {
        assert_eq!(scene.fetch(command, 0, 1), Err(6));
        assert_eq!(scene.fetch(command, 0, 0), Err(6));
    }
    for command in 0..8 {
        assert_eq!(scene.fetch(command, 0, 1), Ok((1, 0)));
    }
}

#[test]
fn fetch_7_window_longer_than_65536() {
    for length in [65_537, 65_538, 131_072] {
        let mut scene = all_open(length);
        assert_eq!(scene.fetch(0, 0, 1), Err(7));
        assert_eq!(scene.fetch(0, 0, 0), Err(7));
    }
    assert_eq!(all_open(65_536).fetch(0, 0, 1), Ok((1, 0)));
}

#[test]
fn fetch_8_store_not_32768_bytes() {
    for length in WRONG_STORES {
        assert_eq!(with_store_of(length).fetch(2, 0, 1), Err(8));
        assert_eq!(with_store_of(length).fetch(2, 0, 0), Err(8));
    }
    assert_eq!(with_store_of(32_768).fetch(2, 0, 1), Ok((1, 0)));
}

#[test]
fn fetch_9_span_past_the_window() {
    for window_length in WINDOWS {
        for length in [0, 1, 2, 100] {
            let mut scene = all_open(window_length);
            for address in addresses_past(window_length, length) {
                assert_eq!(scene.fetch(4, address, length), Err(9));
            }
            if length <= window_length as u64 {
                let last = window_length as u64 - length;
                let expected = scene.window_at(last as usize, length as usize);
                assert_eq!(scene.fetch(4, last, length), Ok((length, 0)));
                assert_eq!(scene.destination[..length as usize], expected);
            }
        }
    }
}

#[test]
fn fetch_9_even_if_all_bytes_are_held() {
    let mut scene = all_open(200);
    assert_eq!(scene.fetch(4, 90, 20), Ok((20, 0)));
    scene.window.truncate(109);
    assert_eq!(scene.fetch(4, 90, 20), Err(9));
    assert_eq!(scene.fetch(4, 90, 19), Ok((0, 19)));
}

#[test]
fn fetch_10_destination_shorter_than_the_span() {
    for length in [1, 2, 100, 4_096] {
        let mut scene = all_open(65_536);
        scene.destination.resize(length - 1, 0x33);
        assert_eq!(scene.fetch(6, 0, length as u64), Err(10));
        scene.destination.clear();
        assert_eq!(scene.fetch(6, 0, length as u64), Err(10));
        assert_eq!(scene.fetch(6, 0, 0), Ok((0, 0)));
        scene.destination.resize(length, 0x33);
        assert_eq!(scene.fetch(6, 0, length as u64), Ok((length as u64, 0)));
        assert_eq!(scene.destination, scene.window_at(0, length));
    }
}

#[test]
fn fetch_10_also_if_all_bytes_are_held() {
    let mut scene = Scene::with_records(6, &[(0, 10)]);
    scene.destination.resize(9, 0);
    assert_eq!(scene.fetch(6, 0, 10), Err(10));
    assert_eq!(scene.fetch(6, 0, 9), Ok((0, 9)));
}

#[test]
fn fetch_21_command_not_open() {
    for command in 0..8 {
        let mut scene = Scene::fresh(64);
        scene.begin((command + 1) % 8).unwrap();
        assert_eq!(scene.fetch(command, 0, 1), Err(21));
        assert_eq!(scene.fetch(command, 0, 0), Err(21));
        scene.begin(command).unwrap();
        assert_eq!(scene.fetch(command, 0, 1), Ok((1, 0)));
        scene.end(command).unwrap();
        assert_eq!(scene.fetch(command, 0, 1), Err(21));
    }
}

#[test]
fn fetch_23_held_bytes_would_pass_4096() {
    let mut scene = Scene::with_records(5, &[(1_000, 4_095)]);
    assert_eq!(scene.fetch(5, 6_000, 2), Err(23));
    assert_eq!(scene.fetch(5, 999, 3), Ok((1, 2)));
    assert_eq!(scene.records(5), [(999, 4_096)]);
    assert_eq!(scene.fetch(5, 6_000, 1), Err(23));
    assert_eq!(scene.fetch(5, 998, 2), Err(23));
    assert_eq!(scene.fetch(5, 5_094, 2), Err(23));
    assert_eq!(scene.fetch(5, 999, 4_096), Ok((0, 4_096)));
    assert_eq!(scene.fetch(5, 6_000, 0), Ok((0, 0)));
    assert_eq!(scene.end(5), Ok((1, 4_096)));
}

#[test]
fn fetch_23_counts_only_the_fresh_bytes_of_a_span_over_several_records() {
    let records = [(0, 1_000), (2_000, 1_000), (10_000, 1_096)];
    let mut scene = Scene::with_records(5, &records);
    assert_eq!(scene.fetch(5, 0, 3_001), Err(23));
    assert_eq!(scene.fetch(5, 0, 3_000), Ok((1_000, 2_000)));
    assert_eq!(scene.records(5), [(0, 3_000), (10_000, 1_096)]);
    assert_eq!(scene.fetch(5, 2_999, 2), Err(23));
}

#[test]
fn fetch_24_records_would_pass_64() {
    let singles = evenly(64, 4, 1);
    let mut scene = Scene::with_records(1, &singles[..63]);
    assert_eq!(scene.fetch(1, 252, 1), Ok((1, 0)));
    assert_eq!(scene.records(1), singles);
    for (address, length) in [(256, 1), (2, 1), (250, 1), (254, 1), (60_000, 100)] {
        assert_eq!(scene.fetch(1, address, length), Err(24));
    }
    assert_eq!(scene.fetch(1, 60_000, 0), Ok((0, 0)));
    assert_eq!(scene.fetch(1, 252, 2), Ok((1, 1)));
    assert_eq!(scene.fetch(1, 60_000, 1), Err(24));
    assert_eq!(scene.fetch(1, 4, 5), Ok((3, 2)));
    assert_eq!(scene.fetch(1, 60_000, 1), Ok((1, 0)));
    assert_eq!(scene.fetch(1, 60_002, 1), Err(24));
    assert_eq!(scene.fetch(1, 0, 4_000), Ok((3_932, 68)));
    assert_eq!(scene.records(1), [(0, 4_000), (60_000, 1)]);
}

#[test]
fn fetch_24_counts_a_record_that_is_touched_as_joined() {
    for (address, length, first) in [(1, 1, (0, 2)), (1, 2, (0, 3)), (3, 1, (3, 2))] {
        let mut scene = Scene::with_records(1, &evenly(64, 4, 1));
        assert_eq!(scene.fetch(1, address, length), Ok((length, 0)));
        assert!(scene.records(1).contains(&first));
        assert_eq!(scene.fetch(1, 60_000, 1), Err(24));
        assert_eq!(scene.end(1), Ok((64, 64 + length)));
    }
    let mut scene = Scene::with_records(1, &evenly(64, 4, 1));
    assert_eq!(scene.fetch(1, 249, 3), Ok((3, 0)));
    assert_eq!(scene.records(1)[62], (248, 5));
    assert_eq!(scene.fetch(1, 60_000, 1), Ok((1, 0)));
    assert_eq!(scene.fetch(1, 60_002, 1), Err(24));
}

#[test]
fn fetch_23_and_24_of_a_span_that_touches_and_of_one_that_does_not() {
    let mut records = evenly(64, 128, 64);
    let mut scene = Scene::with_records(1, &records);
    assert_eq!(scene.fetch(1, 64, 1), Err(23));
    assert_eq!(scene.fetch(1, 66, 1), Err(23));

    records[63].1 = 63;
    let mut scene = Scene::with_records(1, &records);
    assert_eq!(scene.fetch(1, 66, 1), Err(24));
    assert_eq!(scene.fetch(1, 64, 1), Ok((1, 0)));
    assert_eq!(scene.fetch(1, 65, 1), Err(23));
    assert_eq!(scene.end(1), Ok((64, 4_096)));
}

/// A span that is taken in, and the records after it.
type Join = ((usize, usize), Vec<(u64, u64)>);

/// Spans taken in by a command with the records 10+2, 20+2 and 30+2.
fn joins() -> [Join; 13] {
    [
        ((12, 3), vec![(10, 5), (20, 2), (30, 2)]),
        ((18, 2), vec![(10, 2), (18, 4), (30, 2)]),
        ((12, 8), vec![(10, 12), (30, 2)]),
        ((12, 18), vec![(10, 22)]),
        ((22, 8), vec![(10, 2), (20, 12)]),
        ((13, 6), vec![(10, 2), (13, 6), (20, 2), (30, 2)]),
        ((32, 1), vec![(10, 2), (20, 2), (30, 3)]),
        ((9, 1), vec![(9, 3), (20, 2), (30, 2)]),
        ((8, 1), vec![(8, 1), (10, 2), (20, 2), (30, 2)]),
        ((11, 10), vec![(10, 12), (30, 2)]),
        ((21, 1), vec![(10, 2), (20, 2), (30, 2)]),
        ((12, 0), vec![(10, 2), (20, 2), (30, 2)]),
        ((20, 0), vec![(10, 2), (20, 2), (30, 2)]),
    ]
}

#[test]
fn fetch_joins_what_it_touches_on_either_side_and_on_both() {
    for (span, left) in joins() {
        let mut scene = Scene::with_records(1, &[(10, 2), (20, 2), (30, 2)]);
        let held = scene.store[4_096..4_102].to_vec();
        let expected = scene.window_at(span.0, span.1);
        let fresh: u64 = left.iter().map(|record| record.1).sum::<u64>() - 6;
        let replayed = span.1 as u64 - fresh;
        assert_eq!(
            scene.fetch(1, span.0 as u64, span.1 as u64),
            Ok((fresh, replayed))
        );
        if replayed == 0 {
            assert_eq!(scene.destination[..span.1], expected);
        }
        assert_eq!(scene.records(1), left);
        for (place, address) in [10, 11, 20, 21, 30, 31].into_iter().enumerate() {
            assert_eq!(scene.fetch(1, address, 1), Ok((0, 1)));
            assert_eq!(scene.destination[0], held[place]);
        }
    }
}

#[test]
fn fetch_joins_what_it_touches_at_the_first_and_at_the_last_address() {
    let mut scene = Scene::with_records(0, &[(1, 1), (65_534, 1)]);
    assert_eq!(scene.fetch(0, 0, 1), Ok((1, 0)));
    assert_eq!(scene.fetch(0, 65_535, 1), Ok((1, 0)));
    assert_eq!(scene.fetch(0, 65_536, 0), Ok((0, 0)));
    assert_eq!(scene.records(0), [(0, 2), (65_534, 2)]);
}

#[test]
fn fetch_closes_gaps_one_by_one_until_one_record_is_left() {
    for order in [1, 25, 63] {
        let mut scene = Scene::with_records(2, &evenly(64, 2, 1));
        for turn in 0..63 {
            let gap = (turn + 1) * order % 64;
            assert_eq!(scene.fetch(2, 2 * gap - 1, 1), Ok((1, 0)));
            assert_eq!(scene.records(2).len() as u64, 63 - turn);
        }
        assert_eq!(scene.records(2), [(0, 127)]);
        assert_eq!(scene.end(2), Ok((1, 127)));
    }
}

#[test]
fn fetch_leaves_the_store_behind_the_held_bytes_and_the_destination_behind_the_span() {
    let mut scene = Scene::with_records(3, &[(10, 2), (20, 2)]);
    let part = 3 * 4_096;
    let mut expected = scene.clone();
    let held = scene.store[part..part + 4].to_vec();
    let new = scene.window_at(12, 3);
    expected.book.commands[3] = open_with(&[(10, 5), (20, 2)]);
    expected.store[part..part + 7].copy_from_slice(&[&held[..2], &new[..], &held[2..]].concat());
    expected.destination[..4].copy_from_slice(&[&held[1..2], &new[..]].concat());
    assert_eq!(scene.fetch(3, 11, 4), Ok((3, 1)));
    assert!(scene == expected);
}

#[test]
fn a_fetch_or_an_own_write_of_no_bytes_changes_nothing() {
    let touched = vec![(8, 56), (65, 35), (101, 27), (4_103, 1), (65_535, 1)];
    for records in [vec![], touched, vec![(7, 4_096)], evenly(64, 128, 64)] {
        let mut scene = Scene::with_records(3, &records);
        let before = scene.clone();
        for address in [0, 7, 8, 64, 100, 128, 4_103, 9_000, 65_535, 65_536] {
            assert_eq!(scene.fetch(3, address, 0), Ok((0, 0)));
            assert_eq!(scene.own_write(3, address, &[]), Ok((0, 0)));
            assert!(scene == before);
        }
        assert_eq!(scene.fetch(3, 65_537, 0), Err(9));
        assert_eq!(scene.own_write(3, 65_537, &[]), Err(9));
    }
}

#[test]
fn host_write_4_more_than_4096_bytes() {
    let mut scene = Scene::fresh(65_536);
    assert_eq!(scene.host_write(0, &[7; 4_097]), Err(4));
    assert_eq!(scene.host_write(0, &[7; 60_000]), Err(4));
    assert_eq!(scene.host_write(0, &[7; 4_096]), Ok(4_096));
}

#[test]
fn host_write_7_window_longer_than_65536() {
    for length in [65_537, 65_538, 131_072] {
        assert_eq!(Scene::fresh(length).host_write(0, &[7]), Err(7));
        assert_eq!(Scene::fresh(length).host_write(0, &[]), Err(7));
    }
    assert_eq!(Scene::fresh(65_536).host_write(0, &[7]), Ok(1));
}

#[test]
fn host_write_9_span_past_the_window() {
    for window_length in WINDOWS {
        for length in [0, 1, 2, 100] {
            let mut scene = Scene::fresh(window_length);
            let data = vec![0x77; length];
            for address in addresses_past(window_length, length as u64) {
                assert_eq!(scene.host_write(address, &data), Err(9));
            }
            if length <= window_length {
                let last = window_length - length;
                let mut expected = scene.clone();
                expected.window[last..].copy_from_slice(&data);
                assert_eq!(scene.host_write(last as u64, &data), Ok(length as u64));
                assert!(scene == expected);
            }
        }
    }
}

#[test]
fn own_write_4_more_than_4096_bytes() {
    let mut scene = all_open(65_536);
    assert_eq!(scene.own_write(7, 0, &[7; 4_097]), Err(4));
    assert_eq!(scene.own_write(7, 0, &[7; 60_000]), Err(4));
    assert_eq!(scene.own_write(7, 0, &[7; 4_096]), Ok((4_096, 4_096)));
}

#[test]
fn own_write_6_command_above_7() {
    let mut scene = all_open(64);
    for command in NO_COMMANDS {
        assert_eq!(scene.own_write(command, 0, &[7]), Err(6));
    }
    for command in 0..8 {
        assert_eq!(scene.own_write(command, 0, &[7]), Ok((1, 1)));
    }
}

#[test]
fn own_write_7_window_longer_than_65536() {
    for length in [65_537, 65_538, 131_072] {
        assert_eq!(all_open(length).own_write(0, 0, &[7]), Err(7));
        assert_eq!(all_open(length).own_write(0, 0, &[]), Err(7));
    }
    assert_eq!(all_open(65_536).own_write(0, 0, &[7]), Ok((1, 1)));
}

#[test]
fn own_write_8_store_not_32768_bytes() {
    for length in WRONG_STORES {
        let mut scene = Scene::with_records(2, &[(0, 4)]);
        scene.store.resize(length, 0x5a);
        for data in [&[][..], &[7], &[7; 5]] {
            assert_eq!(scene.own_write(2, 0, data), Err(8));
        }
    }
    assert_eq!(with_store_of(32_768).own_write(2, 0, &[7]), Ok((1, 1)));
}

#[test]
fn own_write_9_span_past_the_window() {
    for window_length in WINDOWS {
        for length in [0, 1, 2, 100] {
            let mut scene = all_open(window_length);
            let data = vec![0x77; length];
            for address in addresses_past(window_length, length as u64) {
                assert_eq!(scene.own_write(1, address, &data), Err(9));
            }
            if length <= window_length {
                let last = window_length - length;
                let all = length as u64;
                let mut expected = scene.clone();
                expected.window[last..].copy_from_slice(&data);
                expected.store[4_096..4_096 + length].copy_from_slice(&data);
                if length > 0 {
                    expected.book.commands[1] = open_with(&[(last as u64, all)]);
                }
                assert_eq!(scene.own_write(1, last as u64, &data), Ok((all, all)));
                assert!(scene == expected);
            }
        }
    }
}

#[test]
fn own_write_21_command_not_open() {
    for command in 0..8 {
        let mut scene = Scene::fresh(64);
        scene.begin((command + 1) % 8).unwrap();
        assert_eq!(scene.own_write(command, 0, &[7]), Err(21));
        assert_eq!(scene.own_write(command, 0, &[]), Err(21));
        scene.begin(command).unwrap();
        assert_eq!(scene.own_write(command, 0, &[7]), Ok((1, 1)));
        scene.end(command).unwrap();
        assert_eq!(scene.own_write(command, 0, &[7]), Err(21));
    }
}

/// Makes own writes of a command with these records, one after the other. A row
/// has address and length, and the number due or how many addresses are new.
fn own_writes(records: &[(u64, u64)], rows: &[(u64, u64, Result<u64, u8>)]) -> Scene {
    let mut scene = Scene::with_records(1, records);
    for &(address, length, answer) in rows {
        let data = vec![0x77; length as usize];
        let expected = answer.map(|new| (length, new));
        let row = format!("{address}+{length}");
        assert_eq!(scene.own_write(1, address, &data), expected, "{row}");
    }
    scene
}

#[test]
fn own_write_23_held_bytes_would_pass_4096() {
    let rows = [
        (6_000, 2, Err(23)),
        (999, 3, Ok(1)),
        (6_000, 1, Err(23)),
        (998, 2, Err(23)),
        (5_094, 2, Err(23)),
        (999, 4_096, Ok(0)),
        (6_000, 0, Ok(0)),
    ];
    let mut scene = own_writes(&[(1_000, 4_095)], &rows);
    assert_eq!(scene.end(1), Ok((1, 4_096)));
}

#[test]
fn own_write_23_counts_only_the_new_bytes_of_a_span_over_several_records() {
    let records = [(0, 1_000), (2_000, 1_000), (10_000, 1_096)];
    let rows = [
        (0, 3_001, Err(23)),
        (0, 3_000, Ok(1_000)),
        (2_999, 2, Err(23)),
    ];
    let mut scene = own_writes(&records, &rows);
    assert_eq!(scene.records(1), [(0, 3_000), (10_000, 1_096)]);
}

#[test]
fn own_write_24_records_would_pass_64() {
    let rows = [
        (252, 1, Ok(1)),
        (256, 1, Err(24)),
        (2, 1, Err(24)),
        (250, 1, Err(24)),
        (60_000, 100, Err(24)),
        (60_000, 0, Ok(0)),
        (252, 1, Ok(0)),
        (252, 2, Ok(1)),
        (60_000, 1, Err(24)),
        (4, 5, Ok(3)),
        (60_000, 1, Ok(1)),
        (60_002, 1, Err(24)),
        (0, 4_000, Ok(3_932)),
    ];
    let mut scene = own_writes(&evenly(63, 4, 1), &rows);
    assert_eq!(scene.records(1), [(0, 4_000), (60_000, 1)]);
    own_writes(&evenly(64, 128, 64), &[(66, 1, Err(23)), (64, 1, Err(23))]);
    own_writes(&evenly(64, 128, 63), &[(65, 1, Err(24)), (63, 1, Ok(1))]);
}

#[test]
fn own_write_holds_its_bytes_over_those_held_and_joins_as_a_fetch_does() {
    for (span, left) in joins() {
        let mut scene = Scene::with_records(1, &[(10, 2), (20, 2), (30, 2)]);
        let mut expected = scene.window.clone();
        let held = scene.store[4_096..4_102].to_vec();
        for (address, byte) in [10, 11, 20, 21, 30, 31].into_iter().zip(held) {
            expected[address] = byte;
        }
        let data: Vec<u8> = (0..span.1).map(|place| 100 + place as u8).collect();
        expected[span.0..span.0 + span.1].copy_from_slice(&data);
        let new = left.iter().map(|record| record.1).sum::<u64>() - 6;
        let answer = scene.own_write(1, span.0 as u64, &data);
        assert_eq!(answer, Ok((span.1 as u64, new)));
        assert_eq!(scene.window_at(span.0, span.1), data);
        assert_eq!(scene.records(1), left);
        scene.window.fill(0);
        for (start, length) in left {
            assert_eq!(scene.fetch(1, start, length), Ok((0, length)));
            let (start, length) = (start as usize, length as usize);
            assert_eq!(scene.destination[..length], expected[start..][..length]);
        }
    }
}

#[test]
fn own_write_leaves_the_store_behind_the_held_bytes_and_every_other_part() {
    let mut scene = Scene::with_records(3, &[(10, 2), (20, 2)]);
    let part = 3 * 4_096;
    let mut expected = scene.clone();
    let held = scene.store[part..part + 4].to_vec();
    expected.book.commands[3] = open_with(&[(10, 5), (20, 2)]);
    let written = [61, 62, 63, 64];
    let packed = [&held[..1], &written, &held[2..]].concat();
    expected.store[part..part + 7].copy_from_slice(&packed);
    expected.window[11..15].copy_from_slice(&written);
    assert_eq!(scene.own_write(3, 11, &written), Ok((4, 3)));
    assert!(scene == expected);
}

#[test]
fn a_write_in_part_over_fetched_bytes_changes_those_alone() {
    let mut scene = Scene::with_open(5);
    let fetched = scene.window_at(100, 6);
    assert_eq!(scene.fetch(5, 100, 6), Ok((6, 0)));
    assert_eq!(scene.own_write(5, 102, &[1, 2]), Ok((2, 0)));
    assert_eq!(scene.own_write(5, 103, &[3]), Ok((1, 0)));
    assert_eq!(scene.own_write(5, 200, &[4]), Ok((1, 1)));
    assert_eq!(scene.host_write(100, &[9; 101]), Ok(101));
    assert_eq!(scene.fetch(5, 100, 6), Ok((0, 6)));
    let expected = [&fetched[..2], &[1, 3], &fetched[4..]].concat();
    assert_eq!(scene.destination[..6], expected);
    assert_eq!(scene.fetch(5, 199, 3), Ok((2, 1)));
    assert_eq!(scene.destination[..2], [9, 4]);
    assert_eq!(scene.end(5), Ok((2, 9)));
}

#[test]
fn show_6_command_above_7() {
    let mut scene = all_open(64);
    for command in 0..8 {
        scene.fetch(command, 5, 3).unwrap();
    }
    for command in NO_COMMANDS {
        assert_eq!(scene.show(command, 0), Err(6));
    }
    for command in 0..8 {
        assert_eq!(scene.show(command, 0), Ok((5, 3)));
    }
}

#[test]
fn show_21_command_not_open() {
    for command in 0..8 {
        let mut scene = Scene::fresh(64);
        assert_eq!(scene.show(command, 0), Err(21));
        scene.begin(command).unwrap();
        scene.fetch(command, 5, 3).unwrap();
        assert_eq!(scene.show(command, 0), Ok((5, 3)));
        scene.end(command).unwrap();
        assert_eq!(scene.show(command, 0), Err(21));
    }
}

#[test]
fn show_25_index_not_below_the_record_count() {
    for count in [0, 1, 2, 63, 64] {
        let records = evenly(count, 9, 2);
        let mut scene = Scene::with_records(2, &records);
        for (index, record) in records.iter().enumerate() {
            assert_eq!(scene.show(2, index as u64), Ok(*record));
        }
        for index in [count, count + 1, 64, 65, 256, 1 << 32, u64::MAX] {
            assert_eq!(scene.show(2, index), Err(25));
        }
    }
}
