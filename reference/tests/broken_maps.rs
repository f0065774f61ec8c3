//! The three ways in which a byte map can fail to hold together (20), each alone
//! and at every address, and the maps that only just hold together.

use reference::byte_map::ByteMap;
use sampling::generator::Generator;

use crate::map_scene::{open_with, set_bit, MapScene};
use crate::scene::evenly;

/// Each call is refused, in a window that has the whole map or nothing of it.
fn refused(name: &str, map: &ByteMap) {
    assert!(!map.holds_together(), "{name}");
    for window_length in [0, 4_096] {
        let mut scene = MapScene::fresh(window_length);
        scene.map = map.clone();
        assert_eq!(scene.begin(), Err(20), "{name}");
        assert_eq!(scene.fetch(0, 0), Err(20), "{name}");
        assert_eq!(
            scene.fetch(0, window_length as u64),
            Err(20),
            "{name}, all of the window"
        );
        assert_eq!(scene.own_write(0, &[]), Err(20), "{name}");
        let data = vec![7; window_length];
        assert_eq!(
            scene.own_write(0, &data),
            Err(20),
            "{name}, over all of the window"
        );
        assert_eq!(scene.end(), Err(20), "{name}");
    }
}

/// No call is refused with 20.
fn taken(name: &str, map: &ByteMap) {
    assert!(map.holds_together(), "{name}");
    let mut scene = MapScene::fresh(4_096);
    scene.map = map.clone();
    if map.open == 0 {
        assert_eq!(scene.end(), Err(21), "{name}");
        assert_eq!(scene.begin(), Ok(()), "{name}");
    } else {
        assert_eq!(scene.begin(), Err(22), "{name}");
        assert_eq!(scene.fetch(0, 0), Ok((0, 0)), "{name}");
        assert_eq!(scene.own_write(0, &[]), Ok((0, 0)), "{name}");
        let total = map.held();
        assert_eq!(scene.fetch(0, 4_096), Ok((4_096 - total, total)), "{name}");
        assert_eq!(scene.end(), Ok((1, 4_096)), "{name}");
    }
}

#[test]
fn a_closed_map_with_a_bit_set() {
    for address in 0..4_096 {
        let mut map = ByteMap::FRESH;
        set_bit(&mut map, address);
        refused("closed, held with value 0", &map);
        map.values[address] = 7;
        refused("closed, held", &map);
        map.open = 1;
        taken("the same, open", &map);
    }
    let mut map = open_with(&[(0, 4_096)]);
    taken("all addresses", &map);
    map.open = 0;
    refused("closed, all addresses", &map);
}

#[test]
fn an_address_not_held_whose_value_is_not_zero() {
    for address in 0..4_096 {
        for open in [0, 1, u64::MAX] {
            let mut map = ByteMap::FRESH;
            map.open = open;
            taken("nothing held", &map);
            map.values[address] = 1 << (address % 8);
            refused("a value that is not held", &map);
        }
    }
    let mut map = open_with(&evenly(64, 64, 63));
    taken("one address in 64 is not held", &map);
    map.values[63] = 1;
    refused("the first of them has a value", &map);
    map.values[63] = 0;
    map.values[4_095] = 255;
    refused("the last of them has a value", &map);
}

#[test]
fn more_than_64_runs() {
    for (count, distance, length) in [
        (65, 2, 1),
        (65, 63, 62),
        (65, 63, 1),
        (66, 62, 3),
        (100, 3, 2),
        (1_000, 4, 1),
        (2_048, 2, 1),
    ] {
        refused(
            "too many runs",
            &open_with(&evenly(count, distance, length)),
        );
        for shift in [1, 4_096 - count * distance] {
            let mut runs = evenly(count, distance, length);
            runs.iter_mut().for_each(|run| run.0 += shift);
            if runs.iter().all(|run| run.0 + run.1 <= 4_096) {
                refused("too many runs, further up", &open_with(&runs));
            }
        }
    }
    for (distance, length) in [(2, 1), (64, 63), (64, 1), (63, 62), (5, 4)] {
        taken("64 runs", &open_with(&evenly(64, distance, length)));
    }
    let mut runs = evenly(64, 2, 1);
    runs.push((4_095, 1));
    refused("a 65th run at the last address", &open_with(&runs));
    runs[63] = (4_095, 1);
    taken("a 64th run at the last address", &open_with(&runs[..64]));
    let mut runs = evenly(65, 2, 1);
    runs[10].1 = 2;
    taken("two of 65 runs touch and are one", &open_with(&runs));
}

/// The rules of the map, taken address by address.
fn keeps_every_rule(map: &ByteMap) -> bool {
    let held = |address: usize| map.words[address / 64] & (1 << (address % 64)) != 0;
    let mut runs = 0;
    for address in 0..4_096 {
        if held(address) {
            runs += u64::from(address == 0 || !held(address - 1));
        }
        if held(address) && map.open == 0 || !held(address) && map.values[address] != 0 {
            return false;
        }
    }
    runs <= 64
}

#[test]
fn holds_together_agrees_with_the_rules_taken_address_by_address() {
    let mut generator = Generator::new(30);
    let mut seen = [0, 0];
    for _ in 0..4_000 {
        let count = generator.between(60, 66);
        let distance = generator.between(2, 62);
        let mut map = open_with(&evenly(count, distance, generator.between(1, distance)));
        match generator.below(6) {
            0 => map.open = 0,
            1 => map.values[generator.below(4_096) as usize] = generator.below(2) as u8,
            2 => map.words[generator.below(64) as usize] ^= 1 << generator.below(64),
            3 => set_bit(&mut map, generator.below(4_096) as usize),
            4 => map = ByteMap::FRESH,
            _ => {}
        }
        let expected = keeps_every_rule(&map);
        assert_eq!(map.holds_together(), expected);
        seen[usize::from(expected)] += 1;
    }
    assert!(seen[0] > 1_000 && seen[1] > 1_000, "{seen:?}");
}
