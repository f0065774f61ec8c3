//! If several numbers apply at once to a call of the byte map, the first in the
//! call's own list is given: 30 stands in the place of 7. Every choice of flaws
//! that can stand together is built, in a slight and in a gross form.

use crate::map_scene::{open_with, set_bit, MapScene};
use crate::order_of_refusals::{choices, Seen};
use crate::scene::evenly;

/// The three ways in which a map does not hold together.
#[derive(Clone, Copy)]
enum Way {
    ClosedWithABit,
    ValueNotHeld,
    TooManyRuns,
}

const WAYS: [Way; 3] = [Way::ClosedWithABit, Way::ValueNotHeld, Way::TooManyRuns];

/// Breaks the map, and answers whether it can be broken so: only a closed map
/// has the first way, and only an open one is broken by its runs alone.
fn break_map(scene: &mut MapScene, way: Way) -> bool {
    let map = &mut scene.map;
    match way {
        Way::ClosedWithABit => set_bit(map, 4_095),
        Way::ValueNotHeld => map.values[4_095] = 1,
        Way::TooManyRuns => {
            let open = map.open;
            *map = open_with(&evenly(65, 3, 1));
            map.open = open;
        }
    }
    match way {
        Way::ClosedWithABit => map.open == 0,
        Way::ValueNotHeld => true,
        Way::TooManyRuns => map.open != 0,
    }
}

#[test]
fn begin_gives_the_first_of_20_and_22() {
    let numbers = [20, 22];
    let mut seen = Seen::new();
    for flaws in choices(&numbers) {
        for way in WAYS {
            let mut scene = MapScene::fresh(64);
            scene.map.open = u64::from(flaws.contains(&22));
            if flaws.contains(&20) && !break_map(&mut scene, way) {
                continue;
            }
            seen.check_one(scene.begin(), flaws.first().copied(), &flaws);
        }
    }
    seen.all_of(&numbers);
}

#[test]
fn end_gives_the_first_of_20_and_21() {
    let numbers = [20, 21];
    let mut seen = Seen::new();
    for flaws in choices(&numbers) {
        for way in WAYS {
            let mut scene = MapScene::fresh(64);
            scene.map.open = u64::from(!flaws.contains(&21));
            if flaws.contains(&20) && !break_map(&mut scene, way) {
                continue;
            }
            seen.check_one(scene.end(), flaws.first().copied(), &flaws);
        }
    }
    seen.all_of(&numbers);
}

/// A scene with these flaws and a span to take in there; nothing if they cannot
/// stand together.
fn flawed(flaws: &[u8], way: Way, gross: bool) -> Option<(MapScene, u64, u64)> {
    let has = |number| flaws.contains(&number);
    let broken_by_runs = has(20) && matches!(way, Way::TooManyRuns);
    if has(24) && (has(21) || broken_by_runs) {
        return None;
    }
    let beyond = if gross { 100_000 } else { 4_097 };
    let mut scene = MapScene::fresh(if has(30) { beyond } else { 4_096 });
    if has(24) {
        scene.map = open_with(&evenly(64, 2, 1));
    }
    scene.map.open = u64::from(!has(21));
    if has(20) && !break_map(&mut scene, way) {
        return None;
    }
    let length = match (has(4), gross) {
        (false, _) => 10,
        (true, false) => 4_097,
        (true, true) => u64::MAX - 8,
    };
    let short = if gross { 0 } else { length - 1 };
    scene.destination = vec![0x77; if has(10) { short.min(9_000) } else { 10_000 } as usize];
    let window = scene.window.len() as u64;
    let address = match (has(9), gross) {
        (false, _) => window.checked_sub(length)?,
        (true, false) => (window + 1).checked_sub(length)?,
        (true, true) => u64::MAX - 5,
    };
    Some((scene, address, length))
}

/// Makes a call that takes a span in, with every choice of flaws from its list,
/// and answers how many could be built.
fn first_of_the_list(
    numbers: &[u8],
    call: impl Fn(&mut MapScene, u64, u64) -> Result<(u64, u64), u8>,
) -> u64 {
    let mut seen = Seen::new();
    let mut built = 0;
    for (way, gross) in WAYS.into_iter().flat_map(|way| [(way, false), (way, true)]) {
        for flaws in choices(numbers) {
            let Some((mut scene, address, length)) = flawed(&flaws, way, gross) else {
                continue;
            };
            let answer = call(&mut scene, address, length);
            seen.check_one(answer, flaws.first().copied(), &flaws);
            built += 1;
        }
    }
    seen.all_of(numbers);
    built
}

#[test]
fn fetch_gives_the_first_of_its_list() {
    let numbers = [4, 30, 9, 10, 20, 21, 24];
    let built = first_of_the_list(&numbers, MapScene::fetch);
    assert!(built > 300, "{built}");
}

#[test]
fn own_write_gives_the_first_of_its_list() {
    let numbers = [4, 30, 9, 20, 21, 24];
    let built = first_of_the_list(&numbers, |scene, address, length| {
        scene.own_write(address, &vec![0x77; length.min(9_000) as usize])
    });
    assert!(built > 150, "{built}");
}

#[test]
fn thirty_comes_after_4_and_before_9() {
    let mut scene = MapScene::with_runs(4_097, &[]);
    assert_eq!(scene.fetch(4_097, 4_097), Err(4));
    assert_eq!(scene.fetch(4_097, 4_096), Err(30));
    assert_eq!(scene.fetch(4_098, 0), Err(30));
    assert_eq!(scene.own_write(4_097, &[7; 4_097]), Err(4));
    assert_eq!(scene.own_write(4_097, &[7; 4_096]), Err(30));
    scene.window.truncate(4_096);
    assert_eq!(scene.fetch(4_097, 4_096), Err(9));
    assert_eq!(scene.own_write(4_097, &[7; 4_096]), Err(9));
}
