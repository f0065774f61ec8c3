//! Every refusal number that a call of the byte map can give, with the values on
//! each side of its limit, and what an accepted call leaves. Broken maps (20)
//! have a file of their own.

use reference::byte_map::ByteMap;

use crate::map_scene::{open_with, MapScene};
use crate::scene::evenly;

/// Contents of the first part that stand for an open map.
const OPEN: [u64; 5] = [1, 2, 1 << 8, 1 << 32, u64::MAX];

/// Window lengths at which the end of the window is tried out.
const WINDOWS: [usize; 6] = [0, 1, 63, 64, 4_095, 4_096];

/// A scene with an open map that holds nothing.
fn opened(window_length: usize) -> MapScene {
    MapScene::with_runs(window_length, &[])
}

#[test]
fn begin_22_already_open() {
    for open in OPEN {
        let mut scene = MapScene::with_runs(64, &[(3, 2)]);
        scene.map.open = open;
        assert_eq!(scene.begin(), Err(22));
    }
    let mut scene = MapScene::fresh(64);
    assert_eq!(scene.begin(), Ok(()));
    assert_eq!(scene.begin(), Err(22));
    assert_eq!(scene.end(), Ok((0, 0)));
    assert_eq!(scene.begin(), Ok(()));
}

#[test]
fn begin_opens_with_one_and_clears_everything() {
    let mut scene = MapScene::fresh(64);
    let mut expected = scene.clone();
    expected.map.open = 1;
    scene.begin().unwrap();
    assert!(scene == expected);
    assert_eq!(scene.map.words, [0; 64]);
    assert_eq!(scene.map.values, [0; 4_096]);
}

#[test]
fn end_21_not_open() {
    assert_eq!(MapScene::fresh(64).end(), Err(21));
    for open in OPEN {
        let mut scene = opened(64);
        scene.map.open = open;
        assert_eq!(scene.end(), Ok((0, 0)));
        assert_eq!(scene.end(), Err(21));
    }
}

#[test]
fn end_closes_with_zero_clears_everything_and_answers_runs_and_bytes() {
    for (runs, reply) in [
        (vec![(0, 1)], (1, 1)),
        (vec![(4_095, 1)], (1, 1)),
        (vec![(60, 8)], (1, 8)),
        (vec![(0, 64), (128, 64)], (2, 128)),
        (evenly(64, 64, 63), (64, 64 * 63)),
        (vec![(0, 4_096)], (1, 4_096)),
    ] {
        let mut scene = MapScene::with_runs(64, &runs);
        assert_eq!(scene.runs(), runs);
        scene.map.open = 77;
        let mut expected = scene.clone();
        expected.map = ByteMap::FRESH;
        assert_eq!(scene.end(), Ok(reply));
        assert!(scene == expected);
    }
}

#[test]
fn fetch_4_length_above_4096() {
    for length in [4_097, 8_192, 1 << 16, 1 << 32, u64::MAX] {
        assert_eq!(opened(4_096).fetch(0, length), Err(4));
    }
    assert_eq!(opened(4_096).fetch(0, 4_096), Ok((4_096, 0)));
}

#[test]
fn fetch_30_window_above_4096() {
    for length in [4_097, 8_192, 65_536, 65_537] {
        for (address, count) in [(0, 1), (0, 0), (4_095, 1), (4_096, 1), (u64::MAX, 1)] {
            assert_eq!(opened(length).fetch(address, count), Err(30));
        }
    }
    assert_eq!(opened(4_096).fetch(4_095, 1), Ok((1, 0)));
}

#[test]
fn fetch_9_past_the_window() {
    for length in WINDOWS {
        let end = length as u64;
        for count in (0..=3).chain([end]).filter(|count| *count <= end) {
            assert_eq!(opened(length).fetch(end - count, count), Ok((count, 0)));
            assert_eq!(opened(length).fetch(end - count + 1, count), Err(9));
        }
        for (address, count) in [(end, 1), (1 << 32, 0), (u64::MAX, 0), (u64::MAX, 1)] {
            assert_eq!(opened(length).fetch(address, count), Err(9));
        }
        let wrapping = u64::MAX - 4_095;
        assert_eq!(opened(length).fetch(wrapping, 4_096), Err(9));
    }
}

#[test]
fn fetch_9_though_the_bytes_are_held() {
    let mut scene = MapScene::with_runs(20, &[(16, 8)]);
    assert_eq!(scene.fetch(16, 5), Err(9));
    assert_eq!(scene.fetch(16, 4), Ok((0, 4)));
}

#[test]
fn fetch_10_destination_too_short() {
    for (length, room) in [(1, 0), (4, 3), (4_096, 4_095), (4_096, 0)] {
        let mut scene = opened(4_096);
        scene.destination.truncate(room);
        assert_eq!(scene.fetch(0, length), Err(10));
        scene.destination.resize(length as usize, 7);
        assert_eq!(scene.fetch(0, length), Ok((length, 0)));
        let mut scene = MapScene::with_runs(4_096, &[(0, 4_096)]);
        scene.destination.truncate(room);
        assert_eq!(scene.fetch(0, length), Err(10));
    }
    let mut scene = opened(4_096);
    scene.destination.clear();
    assert_eq!(scene.fetch(0, 0), Ok((0, 0)));
}

#[test]
fn fetch_21_not_open() {
    for (address, length) in [(0, 1), (0, 0), (4_096, 0), (0, 4_096)] {
        assert_eq!(MapScene::fresh(4_096).fetch(address, length), Err(21));
    }
}

#[test]
fn fetch_24_a_65th_run() {
    let full = evenly(64, 2, 1);
    for (address, length) in [(128, 1), (4_095, 1), (130, 3_000)] {
        let mut scene = MapScene::with_runs(4_096, &full);
        assert_eq!(scene.fetch(address, length), Err(24));
    }
    for (address, length, reply, runs) in [
        (128, 0, (0, 0), 64),
        (126, 1, (0, 1), 64),
        (127, 1, (1, 0), 64),
        (127, 3_969, (3_969, 0), 64),
        (0, 3, (1, 2), 63),
        (0, 4_096, (4_032, 64), 1),
    ] {
        let mut scene = MapScene::with_runs(4_096, &full);
        assert_eq!(scene.fetch(address, length), Ok(reply));
        assert_eq!(scene.runs().len(), runs);
    }
    let mut scene = MapScene::with_runs(4_096, &evenly(63, 2, 1));
    assert_eq!(scene.fetch(4_095, 1), Ok((1, 0)));
    assert_eq!(scene.fetch(4_093, 1), Err(24));
    assert_eq!(scene.fetch(4_094, 1), Ok((1, 0)));
}

#[test]
fn fetch_leaves_the_first_part_as_it_is() {
    for open in OPEN {
        let mut scene = opened(4_096);
        scene.map.open = open;
        assert_eq!(scene.fetch(5, 9), Ok((9, 0)));
        assert_eq!(scene.map.open, open);
    }
}

#[test]
fn fetch_of_nothing_changes_nothing() {
    for runs in [vec![], vec![(3, 2)], evenly(64, 2, 1)] {
        for address in [0, 3, 4, 5, 64, 4_095, 4_096] {
            let mut scene = MapScene::with_runs(4_096, &runs);
            let before = scene.clone();
            assert_eq!(scene.fetch(address, 0), Ok((0, 0)));
            assert!(scene == before);
        }
    }
}

#[test]
fn fetch_sets_bits_and_values_of_its_span_and_no_others() {
    for (address, length) in [(0, 1), (63, 1), (63, 2), (64, 64), (1, 4_094), (4_095, 1)] {
        let mut scene = opened(4_096);
        let mut expected = scene.clone();
        expected.map = open_with(&[(address, length)]);
        let span = address as usize..(address + length) as usize;
        expected.map.values[span.clone()].copy_from_slice(&scene.window[span.clone()]);
        expected.destination[..length as usize].copy_from_slice(&scene.window[span]);
        assert_eq!(scene.fetch(address, length), Ok((length, 0)));
        assert!(scene == expected);
    }
}

#[test]
fn held_values_come_from_the_map_whatever_the_window_says() {
    let mut scene = MapScene::with_runs(4_096, &[(62, 4)]);
    scene.map.values[62..66].copy_from_slice(&[0, 1, 2, 0]);
    scene.window.fill(0xee);
    assert_eq!(scene.fetch(61, 6), Ok((2, 4)));
    assert_eq!(scene.destination[..6], [0xee, 0, 1, 2, 0, 0xee]);
    assert_eq!(scene.map.values[61..67], [0xee, 0, 1, 2, 0, 0xee]);
    scene.window.fill(0x11);
    assert_eq!(scene.fetch(60, 8), Ok((2, 6)));
    assert_eq!(scene.destination[..8], [0x11, 0xee, 0, 1, 2, 0, 0xee, 0x11]);
    assert_eq!(scene.runs(), [(60, 8)]);
}

#[test]
fn own_write_4_length_above_4096() {
    for length in [4_097, 8_192, 1 << 16] {
        assert_eq!(opened(4_096).own_write(0, &vec![7; length]), Err(4));
    }
    let answer = opened(4_096).own_write(0, &[7; 4_096]);
    assert_eq!(answer, Ok((4_096, 4_096)));
}

#[test]
fn own_write_30_window_above_4096() {
    for length in [4_097, 8_192, 65_536, 65_537] {
        for address in [0, 4_095, 4_096, u64::MAX] {
            for data in [&[][..], &[7]] {
                assert_eq!(opened(length).own_write(address, data), Err(30));
            }
        }
    }
    assert_eq!(opened(4_096).own_write(4_095, &[7]), Ok((1, 1)));
}

#[test]
fn own_write_9_past_the_window() {
    for length in WINDOWS {
        let end = length as u64;
        for count in (0..=3).chain([length]).filter(|count| *count <= length) {
            let (data, last) = (vec![7; count], end - count as u64);
            let all = (count as u64, count as u64);
            assert_eq!(opened(length).own_write(last, &data), Ok(all));
            assert_eq!(opened(length).own_write(last + 1, &data), Err(9));
            let wrapping = u64::MAX - last;
            assert_eq!(opened(length).own_write(wrapping, &data), Err(9));
        }
    }
    let mut scene = MapScene::with_runs(20, &[(16, 8)]);
    assert_eq!(scene.own_write(16, &[7; 5]), Err(9));
    assert_eq!(scene.own_write(16, &[7; 4]), Ok((4, 0)));
}

#[test]
fn own_write_21_not_open() {
    for data in [&[][..], &[7], &[7; 4_096]] {
        assert_eq!(MapScene::fresh(4_096).own_write(0, data), Err(21));
    }
}

#[test]
fn own_write_24_a_65th_run() {
    for (address, length, answer, runs) in [
        (128, 1, Err(24), 64),
        (4_095, 1, Err(24), 64),
        (130, 3_000, Err(24), 64),
        (128, 0, Ok(0), 64),
        (126, 1, Ok(0), 64),
        (127, 1, Ok(1), 64),
        (127, 3_969, Ok(3_969), 64),
        (0, 3, Ok(1), 63),
        (0, 4_096, Ok(4_032), 1),
    ] {
        let mut scene = MapScene::with_runs(4_096, &evenly(64, 2, 1));
        let expected = answer.map(|new| (length as u64, new));
        assert_eq!(scene.own_write(address, &vec![7; length]), expected);
        assert_eq!(scene.runs().len(), runs);
    }
    let mut scene = MapScene::with_runs(4_096, &evenly(63, 2, 1));
    assert_eq!(scene.own_write(4_095, &[7]), Ok((1, 1)));
    assert_eq!(scene.own_write(4_093, &[7]), Err(24));
}

#[test]
fn own_write_sets_window_bits_and_values_of_its_span_and_no_others() {
    for (address, length) in [(0, 0), (0, 1), (63, 2), (60, 8), (1, 4_094), (4_095, 1)] {
        for open in OPEN {
            let mut scene = MapScene::with_runs(4_096, &[(62, 4)]);
            scene.map.open = open;
            let mut expected = scene.clone();
            let data: Vec<u8> = (0..length).map(|place| place as u8).collect();
            let (start, end) = (address as usize, address as usize + length);
            expected.window[start..end].copy_from_slice(&data);
            expected.map = open_with(&[(62, 4), (address, length as u64)]);
            expected.map.values[start..end].copy_from_slice(&data);
            expected.map.open = open;
            let new = expected.map.held() - 4;
            let answer = scene.own_write(address, &data);
            assert_eq!(answer, Ok((length as u64, new)));
            assert!(scene == expected);
        }
    }
}

#[test]
fn a_map_gives_what_was_written_and_not_what_the_window_says() {
    let mut scene = opened(4_096);
    let fetched = scene.window[60..64].to_vec();
    assert_eq!(scene.fetch(60, 4), Ok((4, 0)));
    assert_eq!(scene.own_write(62, &[1, 2, 3]), Ok((3, 1)));
    assert_eq!(scene.own_write(63, &[0]), Ok((1, 0)));
    scene.window.fill(0xee);
    assert_eq!(scene.fetch(60, 6), Ok((1, 5)));
    let expected = [&fetched[..2], &[1, 0, 3, 0xee]].concat();
    assert_eq!(scene.destination[..6], expected);
    assert_eq!(scene.end(), Ok((1, 6)));
}

#[test]
fn a_map_forgets_with_its_end() {
    let mut scene = MapScene::fresh(4_096);
    scene.begin().unwrap();
    scene.fetch(16, 2).unwrap();
    scene.window.fill(0xee);
    assert_eq!(scene.end(), Ok((1, 2)));
    scene.begin().unwrap();
    assert_eq!(scene.fetch(16, 2), Ok((2, 0)));
    assert_eq!(scene.destination[..2], [0xee, 0xee]);
}
