//! If several numbers apply at once to a walk, the first in the walk's own order
//! is given. Every choice of flaws that can stand together is built.

use crate::order_of_refusals::{choices, holding_scene, Seen, GROSS, SLIGHT};
use crate::scene::{evenly, Scene};
use crate::walk_scene::{transfer, Desk};

/// The order: 31, then 10, then those of the call, then the walk's own. They are
/// all judged at PRP1 or at one list here.
const NUMBERS: [u8; 11] = [31, 10, 6, 7, 8, 20, 21, 32, 9, 23, 24];

/// What else a walk is given, for each flaw.
struct Flawed {
    length: u64,
    desk: [usize; 3],
    prp1: u64,
    list: u64,
}

#[test]
fn walk_gives_31_then_10_then_the_call_s_numbers_and_then_its_own() {
    let slight = Flawed {
        length: 65_537,
        desk: [127, 17, 17],
        prp1: 2,
        list: 65_536,
    };
    let gross = Flawed {
        length: 0,
        desk: [128, 17, 0],
        prp1: u64::MAX,
        list: u64::MAX - 7,
    };
    let mut seen = Seen::new();
    for (form, flawed) in [(SLIGHT, slight), (GROSS, gross)] {
        for flaws in choices(&NUMBERS) {
            let has = |number| flaws.contains(&number);
            let Some(mut scene) = holding_scene(&flaws, &form) else {
                continue;
            };
            scene.put_entries(65_520, &[4_096, 8_192]);
            let length = if has(31) { flawed.length } else { 12_288 };
            let prp1 = if has(32) { flawed.prp1 } else { 0 };
            let list = if has(9) { flawed.list } else { 65_520 };
            let sizes = if has(10) { flawed.desk } else { [128, 17, 17] };
            let mut desk = Desk::of(sizes[0], sizes[1], sizes[2]);
            let command = if has(6) { form.command } else { 3 };
            let answer = scene.walk_at(&mut desk, command, transfer(prp1, list, length));
            seen.check_one(answer, flaws.first().copied(), &flaws);
        }
    }
    seen.all_of(&NUMBERS);
}

/// Where a walk can be refused from PRP1 on, in its order: PRP1, PRP2, the fetch
/// of the list, an entry there, the onward one, the fetch of the next list, an
/// entry there.
const PLACES: [u8; 7] = [0, 1, 2, 3, 4, 5, 6];

/// Where the list starts and where it goes on. The one has an entry and the
/// onward one, the other three entries.
const LISTS: [u64; 2] = [6 * 4_096 - 16, 3 * 4_096];

/// A scene in which the fetches of these places are refused with the number. The
/// command holds as much as leaves no room for the list or for the next one.
fn scene_without_room(number: u8, places: &[u8]) -> Scene {
    let list_too = places.contains(&2);
    let records = match (number, list_too || places.contains(&5)) {
        (23, true) => vec![(0, if list_too { 4_096 } else { 4_080 })],
        (24, true) => evenly(if list_too { 64 } else { 63 }, 4, 1),
        _ => vec![],
    };
    Scene::with_records(3, &records)
}

#[test]
fn walk_judges_from_prp1_on_entry_by_entry() {
    for number in [9, 23, 24] {
        for places in choices(&PLACES) {
            let flawed = |place| places.contains(&place);
            let mut scene = scene_without_room(number, &places);
            let off = |place, by| if flawed(place) { by } else { 0 };
            let beyond = |place| off(place, if number == 9 { 65_536 } else { 0 });
            let onward = LISTS[1] + off(4, 8) + beyond(5);
            scene.put_entries(LISTS[0], &[4_096 + off(3, 1), onward]);
            scene.put_entries(LISTS[1], &[0, 4_096 + off(6, 2_048), 8_192]);
            let list = LISTS[0] + off(1, 4) + beyond(2);
            let held = scene.clone().end(3).unwrap().1;

            let answer = scene.walk(3, transfer(off(0, 2), list, 20_480));
            let first = places.first().copied();
            let due = first.map(|place| [32, 32, number, 32, 32, number, 32][place as usize]);
            assert_eq!(answer.err(), due, "{number} {places:?}");
            let fetched = [0, 0, 0, 16, 16, 16, 40, 40][first.unwrap_or(7) as usize];
            assert_eq!(scene.end(3).unwrap().1, held + fetched);
        }
    }
}
