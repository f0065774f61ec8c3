//! How many records a fetch and a walk look at (F-6 of 02, the agreed changes;
//! docs/RULES.md has them too), with the spans on each side of every edge.

use reference::walk::Transfer;

use crate::scene::{evenly, Scene};
use crate::walk_scene::{transfer, Desk};

/// How many records an accepted fetch by command 1 looks at.
fn looked(scene: &mut Scene, address: u64, length: u64) -> u64 {
    scene.fetched(1, address, length).unwrap().looked
}

/// The same of a walk by command 1.
fn walk_looked(scene: &mut Scene, transfer: Transfer) -> Result<u64, u8> {
    let walked = scene.walked_at(&mut Desk::of(128, 17, 17), 1, transfer);
    walked.map(|(_, looked)| looked)
}

#[test]
fn a_record_that_starts_at_the_end_is_passed_over_and_one_above_ends_the_search() {
    let scene = Scene::with_records(1, &[(10, 2), (20, 2), (30, 2)]);
    for (ends, due) in [(1..=9, 1), (10..=19, 2), (20..=29, 3), (30..=60, 3)] {
        for end in ends {
            for address in 0..end {
                let found = looked(&mut scene.clone(), address, end - address);
                assert_eq!(found, due, "{address} to {end}");
            }
        }
    }
}

#[test]
fn each_of_64_records_is_passed_over_or_ends_the_search() {
    let scene = Scene::with_records(1, &evenly(64, 9, 2));
    assert_eq!(looked(&mut scene.clone(), 0, 1), 2);
    for place in 1..64 {
        let start = 9 * place;
        let below = looked(&mut scene.clone(), start - 9, 8);
        let at = looked(&mut scene.clone(), start - 9, 9);
        assert_eq!([below, at], [place + 1, 64.min(place + 2)]);
    }
    for (address, length) in [(568, 1), (569, 1), (567, 3_000), (2, 3_000)] {
        assert_eq!(looked(&mut scene.clone(), address, length), 64);
    }
    assert_eq!(scene.clone().fetched(1, 4, 1), Err(24));
}

#[test]
fn a_single_record_is_looked_at_wherever_it_lies() {
    let scene = Scene::with_records(1, &[(100, 2)]);
    for address in [0, 98, 99, 100, 101, 102, 103, 61_442] {
        for length in [1, 2, 4_094] {
            assert_eq!(looked(&mut scene.clone(), address, length), 1);
        }
    }
}

#[test]
fn the_records_of_other_commands_are_not_looked_at() {
    let mut scene = Scene::with_records(2, &evenly(64, 9, 2));
    scene.begin(1).unwrap();
    assert_eq!(looked(&mut scene, 9, 100), 0);
    assert_eq!(looked(&mut scene, 9, 100), 1);
}

#[test]
fn no_record_is_looked_at_for_no_bytes() {
    for records in [
        vec![],
        vec![(10, 2)],
        vec![(0, 1), (10, 2), (65_535, 1)],
        vec![(7, 4_096)],
        evenly(64, 9, 2),
    ] {
        let mut scene = Scene::with_records(1, &records);
        for address in [0, 1, 9, 10, 11, 12, 13, 567, 569, 65_535, 65_536] {
            assert_eq!(looked(&mut scene, address, 0), 0);
        }
    }
}

#[test]
fn records_are_counted_before_they_are_joined() {
    let mut scene = Scene::with_records(1, &evenly(6, 10, 2));
    for (address, length, due, left) in [
        (11, 20, 5, 4),
        (11, 20, 3, 4),
        (32, 8, 4, 3),
        (32, 8, 3, 3),
        (0, 60, 3, 1),
        (0, 60, 1, 1),
    ] {
        assert_eq!(looked(&mut scene, address, length), due);
        assert_eq!(scene.records(1).len(), left);
    }
}

#[test]
fn records_that_the_command_wrote_are_looked_at() {
    let mut scene = Scene::with_records(1, &[]);
    assert_eq!(scene.own_write(1, 200, &[1]), Ok((1, 1)));
    assert_eq!(scene.own_write(1, 100, &[2]), Ok((1, 1)));
    for (address, due) in [(98, 1), (99, 3), (150, 2), (199, 3), (201, 3)] {
        assert_eq!(looked(&mut scene, address, 1), due);
    }
}

#[test]
fn the_search_goes_up_to_the_last_address() {
    let scene = Scene::with_records(1, &[(0, 1), (65_533, 1), (65_535, 1)]);
    for (address, length, due) in [
        (65_531, 1, 2),
        (65_532, 1, 3),
        (65_534, 1, 3),
        (65_535, 1, 3),
        (61_442, 4_094, 3),
    ] {
        assert_eq!(looked(&mut scene.clone(), address, length), due);
    }
}

#[test]
fn a_walk_without_a_list_looks_at_no_record() {
    let mut scene = Scene::with_records(1, &evenly(64, 9, 2));
    for (prp1, length) in [(0, 1), (0, 4_096), (0, 8_192), (4_092, 4), (4_092, 4_100)] {
        assert_eq!(walk_looked(&mut scene, transfer(prp1, 0, length)), Ok(0));
    }
}

#[test]
fn a_walk_over_one_list_looks_at_the_records_of_its_fetch() {
    let mut scene = Scene::with_records(1, &[]);
    scene.put_entries(512, &[4_096, 8_192]);
    for (address, length) in [(100, 4), (600, 1), (520, 4), (530, 1), (528, 1)] {
        scene.fetch(1, address, length).unwrap();
    }
    let walk = transfer(0, 512, 12_288);
    let mut apart = scene.clone();
    for due in [4, 3, 3] {
        assert_eq!(walk_looked(&mut scene, walk), Ok(due));
        assert_eq!(looked(&mut apart, 512, 16), due);
    }
}

/// A list of two entries, of which the last one leads on.
const LIST: u64 = 6 * 4_096 - 16;

/// A walk over that list and three entries of another one.
fn two_lists(scene: &mut Scene, onward: u64) -> Transfer {
    scene.put_entries(LIST, &[4_096, onward]);
    scene.put_entries(onward, &[4_096, 8_192, 0]);
    transfer(0, LIST, 5 * 4_096)
}

#[test]
fn a_walk_over_two_lists_adds_up_what_each_fetch_looks_at() {
    let few = vec![(1, 1), (3 * 4_096, 1), (12 * 4_096 + 24, 1)];
    for (records, onward, due) in [
        (vec![], 4_096, [1, 4]),
        (vec![], 6 * 4_096, [1, 2]),
        (vec![], 9 * 4_096, [1, 4]),
        (few.clone(), 4_096, [3 + 2, 5 + 3]),
        (few.clone(), 6 * 4_096, [3 + 4, 4 + 4]),
        (few.clone(), 9 * 4_096, [3 + 4, 4 + 5]),
        (few.clone(), 12 * 4_096, [3 + 4, 4 + 4]),
        (evenly(62, 4, 1), 4_096, [62 + 63, 64 + 64]),
        (evenly(62, 4, 1), 9 * 4_096, [62 + 63, 64 + 64]),
    ] {
        let mut scene = Scene::with_records(1, &records);
        let walk = two_lists(&mut scene, onward);
        let mut apart = scene.clone();
        for due in due {
            assert_eq!(walk_looked(&mut scene, walk), Ok(due), "{onward}");
            let fetches = [(LIST, 16), (onward, 24)];
            let sum = fetches.map(|(list, length)| looked(&mut apart, list, length));
            assert_eq!(sum[0] + sum[1], due);
        }
    }
}

#[test]
fn a_refused_walk_answers_no_count_but_its_lists_are_looked_at() {
    for (wrong, due) in [(LIST, 1), (LIST + 8, 1), (9 * 4_096, 2)] {
        let mut scene = Scene::with_records(1, &[]);
        let walk = two_lists(&mut scene, 9 * 4_096);
        scene.window[wrong as usize] = 1;
        assert_eq!(walk_looked(&mut scene, walk), Err(32));
        assert_eq!(looked(&mut scene, 60_000, 1), due);
    }
}
