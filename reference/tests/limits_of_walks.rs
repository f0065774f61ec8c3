//! Every refusal number that a walk can give, with the values on each side of
//! its limit, and what an accepted walk answers there.

use reference::walk::Transfer;

use crate::scene::{evenly, open_with, Scene};
use crate::walk_scene::{transfer, Desk};

/// What is too much for a multiple of 4,096.
const OFF_BY: [u64; 6] = [1, 8, 512, 2_048, 4_088, 4_095];

/// Places in a page, and how many bytes there are up to its end.
const OFFSETS: [(u64, u64); 5] = [
    (0, 4_096),
    (4, 4_092),
    (2_048, 2_048),
    (4_088, 8),
    (4_092, 4),
];

/// The highest address of a page.
const HIGHEST: u64 = u64::MAX - 4_095;

/// PRP1 of the walks with lists: four bytes are left in its page.
const FIRST: u64 = 123 * 4_096 + 4_092;

/// How many bytes these walks have in their last page.
const LAST: u64 = 1_000;

/// A scene in which command 1 is open and holds nothing, with a window of
/// 65,536 bytes.
fn opened() -> Scene {
    Scene::with_records(1, &[])
}

/// The address of a page.
fn page(number: u64) -> u64 {
    4_096 * number
}

/// So many pages, far from the window and from each other.
fn far_pages(count: u64) -> Vec<u64> {
    (0..count).map(|place| page(1_000 + 7 * place)).collect()
}

/// A list of so many pages from an address on. Where not all fit up to the end
/// of the list's page it goes on in another one. Answers the pages.
fn put_list(scene: &mut Scene, at: u64, onward: u64, count: u64) -> Vec<u64> {
    let pages = far_pages(count);
    let fitting = (page(1) - at % page(1)) / 8;
    if count <= fitting {
        scene.put_entries(at, &pages);
    } else {
        let (first, rest) = pages.split_at(fitting as usize - 1);
        scene.put_entries(at, &[first, &[onward]].concat());
        scene.put_entries(onward, rest);
    }
    pages
}

/// A transfer with so many pages behind the first.
fn listed(list: u64, count: u64) -> Transfer {
    transfer(FIRST, list, 4 + page(count - 1) + LAST)
}

/// The spans of such a transfer.
fn spans(pages: &[u64]) -> Vec<(u64, u64)> {
    let mut spans = vec![(FIRST, 4)];
    spans.extend(pages.iter().map(|page| (*page, 4_096)));
    spans[pages.len()].1 = LAST;
    spans
}

#[test]
fn walk_31_transfer_not_1_to_65536_bytes() {
    let mut scene = opened();
    let pages = put_list(&mut scene, 512, 0, 15);
    for length in [0, 65_537, 65_538, 131_072, (1 << 32) + 1, u64::MAX] {
        assert_eq!(scene.walk(1, transfer(0, 512, length)), Err(31));
    }
    assert_eq!(scene.walk(1, transfer(0, 512, 1)), Ok(vec![(0, 1)]));
    let most = scene.walk(1, transfer(0, 512, 65_536)).unwrap();
    assert_eq!((most.len(), most[15]), (16, (pages[14], 4_096)));
}

#[test]
fn walk_10_scratch_below_128_bytes() {
    for length in [0, 1, 8, 120, 127, 128, 129, 200, 4_096] {
        for bytes in [1, 8_192, 65_536] {
            let mut scene = opened();
            put_list(&mut scene, page(1), 0, 16);
            let mut desk = Desk::of(length, 17, 17);
            let answer = scene.walk_at(&mut desk, 1, transfer(0, page(1), bytes));
            if length < 128 {
                assert_eq!(answer, Err(10));
            } else {
                assert_eq!(answer.unwrap().len() as u64, bytes.div_ceil(4_096));
                assert_eq!(desk.scratch, vec![0; length]);
            }
        }
    }
}

#[test]
fn walk_10_list_of_fewer_than_17_places() {
    for [addresses, lengths] in [[16, 17], [17, 16], [0, 17], [17, 0], [200, 16]] {
        for bytes in [1, 8_192, 65_536] {
            let mut scene = opened();
            put_list(&mut scene, page(1), 0, 16);
            let mut desk = Desk::of(128, addresses, lengths);
            let answer = scene.walk_at(&mut desk, 1, transfer(4, page(1), bytes));
            assert_eq!(answer, Err(10));
        }
    }
    for [addresses, lengths] in [[17, 17], [18, 17], [17, 18], [200, 300]] {
        let mut scene = opened();
        let pages = put_list(&mut scene, page(1), 0, 16);
        let mut desk = Desk::of(128, addresses, lengths);
        let answer = scene.walk_at(&mut desk, 1, transfer(4, page(1), 65_536));
        assert_eq!(answer.unwrap()[16], (pages[15], 4));
    }
}

#[test]
fn walk_6_command_above_7() {
    let mut scene = Scene::fresh(64);
    for command in 0..8 {
        scene.begin(command).unwrap();
    }
    for command in [8, 9, 256 + 3, (1 << 32) + 3, u64::MAX] {
        assert_eq!(scene.walk(command, transfer(0, 0, 1)), Err(6));
        assert_eq!(scene.walk(command, transfer(0, 0, 65_536)), Err(6));
    }
    for command in 0..8 {
        assert_eq!(scene.walk(command, transfer(8, 0, 1)), Ok(vec![(8, 1)]));
    }
}

#[test]
fn walk_7_8_and_21_with_a_list_and_without() {
    for (window, store, open, due) in [
        (65_537, 32_768, true, Err(7)),
        (131_072, 32_768, true, Err(7)),
        (65_536, 32_767, true, Err(8)),
        (65_536, 32_769, true, Err(8)),
        (65_536, 0, true, Err(8)),
        (65_536, 32_768, false, Err(21)),
        (65_536, 32_768, true, Ok(())),
    ] {
        for bytes in [1, 8_192, 12_288] {
            let mut scene = Scene::fresh(window);
            scene.store.resize(store, 0x5a);
            if open {
                scene.book.commands[1] = open_with(&[]);
            }
            scene.put_entries(page(2), &far_pages(2));
            let answer = scene.walk(1, transfer(0, page(2), bytes));
            assert_eq!(answer.map(|_| ()), due);
        }
    }
}

#[test]
fn walk_20_book_broken_in_any_command() {
    for broken in 0..8 {
        for bytes in [1, 65_536] {
            let mut scene = opened();
            scene.book.commands[broken] = open_with(&[(40, 8), (48, 8)]);
            assert_eq!(scene.walk(1, transfer(3, 512, bytes)), Err(20));
            scene.book.commands[broken] = open_with(&[(40, 8), (49, 8)]);
            assert_eq!(scene.walk(1, transfer(3, 512, bytes)), Err(32));
        }
    }
}

#[test]
fn walk_32_prp1_no_multiple_of_4() {
    let mut scene = opened();
    for prp1 in [1, 2, 3, 5, 4_095, page(9) + 6, u64::MAX - 1, u64::MAX] {
        for bytes in [1, 4_096, 65_536] {
            assert_eq!(scene.walk(1, transfer(prp1, 512, bytes)), Err(32));
        }
    }
    for prp1 in [0, 4, 4_092, page(9) + 8, u64::MAX - 3] {
        assert_eq!(scene.walk(1, transfer(prp1, 1, 4)), Ok(vec![(prp1, 4)]));
    }
    assert_eq!(scene.end(1), Ok((0, 0)));
}

#[test]
fn walk_of_one_page_does_not_look_at_prp2() {
    for base in [0, page(3), 1 << 52, HIGHEST] {
        for (offset, room) in OFFSETS {
            let mut scene = Scene::with_open(1);
            scene.window.clear();
            let first = base + offset;
            for prp2 in [0, 1, 4, 4_095, u64::MAX] {
                for length in [1, 2, room - 1, room] {
                    let answer = scene.walk(1, transfer(first, prp2, length));
                    assert_eq!(answer, Ok(vec![(first, length)]));
                }
            }
            assert_eq!(scene.end(1), Ok((0, 0)));
        }
    }
}

#[test]
fn walk_of_two_pages_has_the_second_in_prp2() {
    for (offset, room) in OFFSETS {
        let mut scene = Scene::with_open(1);
        scene.window.clear();
        let first = page(5) + offset;
        for length in [room + 1, room + 2, room + 4_095, room + 4_096] {
            for prp2 in [0, page(1), page(5), page(6), HIGHEST] {
                let spans = vec![(first, room), (prp2, length - room)];
                let answer = scene.walk(1, transfer(first, prp2, length));
                assert_eq!(answer, Ok(spans));
            }
            for off in OFF_BY {
                for prp2 in [off, page(2) + off, HIGHEST + off] {
                    let answer = scene.walk(1, transfer(first, prp2, length));
                    assert_eq!(answer, Err(32));
                }
            }
        }
        assert_eq!(scene.end(1), Ok((0, 0)));
    }
}

#[test]
fn walk_of_three_pages_and_more_has_them_in_a_list() {
    for (offset, room) in OFFSETS {
        let most = 65_536 - room;
        for behind in [4_097, 4_098, 8_191, 8_192, 8_193, 40_000, most - 1, most] {
            let mut scene = opened();
            let needed = behind.div_ceil(4_096);
            let pages = put_list(&mut scene, 800, 0, needed);
            let first = page(77) + offset;
            let answer = scene.walk(1, transfer(first, 800, room + behind));
            let mut spans = vec![(first, room)];
            spans.extend(pages.iter().map(|page| (*page, 4_096)));
            spans[needed as usize].1 = behind - page(needed - 1);
            assert_eq!(answer, Ok(spans));
            assert_eq!(scene.records(1), [(800, 8 * needed)]);
            assert_eq!(scene.end(1), Ok((1, 8 * needed)));
        }
    }
}

#[test]
fn walk_of_17_spans() {
    for offset in [4, 8, 2_048, 4_092] {
        let mut scene = opened();
        let list = page(3) - 8 * 16;
        let pages = put_list(&mut scene, list, 0, 16);
        let first = HIGHEST + offset;
        let spans = scene.walk(1, transfer(first, list, 65_536)).unwrap();
        assert_eq!(spans.len(), 17);
        assert_eq!(spans[0], (first, 4_096 - offset));
        for place in 1..16 {
            assert_eq!(spans[place], (pages[place - 1], 4_096));
        }
        assert_eq!(spans[16], (pages[15], offset));
    }
}

#[test]
fn walk_32_list_at_no_multiple_of_8() {
    let mut scene = opened();
    for list in [1, 2, 4, 7, 4_095, 61_441, u64::MAX - 6, u64::MAX] {
        assert_eq!(scene.walk(1, listed(list, 2)), Err(32));
    }
    assert_eq!(scene.records(1), []);
    let pages = put_list(&mut scene, 8, 0, 2);
    assert_eq!(scene.walk(1, listed(8, 2)), Ok(spans(&pages)));
}

#[test]
fn walk_with_as_many_entries_as_fit_needs_no_onward_entry() {
    for needed in 2..=16 {
        let at = page(6) - 8 * needed;
        let mut scene = opened();
        let pages = put_list(&mut scene, at, 0, needed);
        assert_eq!(scene.walk(1, listed(at, needed)), Ok(spans(&pages)));
        assert_eq!(scene.records(1), [(at, 8 * needed)]);
    }
}

#[test]
fn walk_goes_on_where_the_last_entry_of_the_page_says() {
    for needed in 2..=16 {
        for fitting in 1..needed {
            let at = page(6) - 8 * fitting;
            let behind = 8 * (needed - fitting + 1);
            for onward in [0, page(1), page(7), page(15)] {
                let mut scene = opened();
                let pages = put_list(&mut scene, at, onward, needed);
                assert_eq!(scene.walk(1, listed(at, needed)), Ok(spans(&pages)));
                let mut records = vec![(at, 8 * fitting), (onward, behind)];
                records.sort();
                assert_eq!(scene.records(1), records);
                assert_eq!(scene.end(1), Ok((2, 8 * (needed + 1))));
            }
        }
    }
}

#[test]
fn walk_that_goes_on_right_behind_its_list_has_one_record() {
    let mut scene = opened();
    let at = page(6) - 24;
    let pages = put_list(&mut scene, at, page(6), 9);
    assert_eq!(scene.walk(1, listed(at, 9)), Ok(spans(&pages)));
    assert_eq!(scene.records(1), [(at, 80)]);
}

#[test]
fn walk_may_go_on_in_a_page_that_it_has_used() {
    let mut scene = opened();
    let pages = put_list(&mut scene, page(7) - 8, page(6), 9);
    assert_eq!(scene.walk(1, listed(page(7) - 8, 9)), Ok(spans(&pages)));
    assert_eq!(scene.records(1), [(page(6), 72), (page(7) - 8, 8)]);

    scene.put_entries(page(7) - 8, &[page(9)]);
    scene.put_entries(page(6), &[1; 9]);
    assert_eq!(scene.walk(1, listed(page(7) - 8, 9)), Ok(spans(&pages)));
    assert_eq!(scene.end(1), Ok((2, 80)));
}

#[test]
fn walk_32_each_entry_in_turn_and_the_onward_one() {
    for needed in [2, 3, 9, 16] {
        for fitting in [needed, needed - 1, needed / 2, 1, 300] {
            let at = page(6) - 8 * fitting;
            let here = needed.min(fitting);
            let onward = u64::from(needed > fitting);
            for wrong in 0..needed + onward {
                let in_first = wrong < here;
                let place = if in_first {
                    at + 8 * wrong
                } else {
                    page(9) + 8 * (wrong - here)
                };
                for off in OFF_BY {
                    let mut scene = opened();
                    put_list(&mut scene, at, page(9), needed);
                    let [low, high] = (off as u16).to_le_bytes();
                    scene.window[place as usize] |= low;
                    scene.window[place as usize + 1] |= high;
                    assert_eq!(scene.walk(1, listed(at, needed)), Err(32));
                    let mut fetched = vec![(at, 8 * here)];
                    if !in_first {
                        fetched.push((page(9), 8 * (needed + 1 - here)));
                    }
                    assert_eq!(scene.records(1), fetched);
                }
            }
        }
    }
}

#[test]
fn walk_judges_no_entry_that_is_not_needed() {
    let mut scene = opened();
    let pages = far_pages(2);
    scene.put_entries(96, &[1, pages[0], pages[1], 1]);
    assert_eq!(scene.walk(1, listed(104, 2)), Ok(spans(&pages)));
    assert_eq!(scene.records(1), [(104, 16)]);
}

#[test]
fn walk_9_list_past_the_window() {
    for needed in [2, 3, 16] {
        for missing in [0, 1, 7, 8, 9] {
            let mut scene = opened();
            let pages = put_list(&mut scene, page(5), 0, needed);
            let window = page(5) + 8 * needed - missing;
            scene.window.truncate(window as usize);
            let due = if missing == 0 {
                Ok(spans(&pages))
            } else {
                Err(9)
            };
            assert_eq!(scene.walk(1, listed(page(5), needed)), due);
        }
    }
}

#[test]
fn walk_9_list_at_an_address_that_no_window_has() {
    for list in [65_536, 65_536 + 512, 1 << 32, HIGHEST, u64::MAX - 7] {
        for needed in [2, 16] {
            let mut scene = opened();
            assert_eq!(scene.walk(1, listed(list, needed)), Err(9));
            assert_eq!(scene.records(1), []);
        }
    }
}

#[test]
fn walk_9_next_list_past_the_window() {
    let at = page(6) - 16;
    for onward in [page(16), page(17), 1 << 32, HIGHEST] {
        let mut scene = opened();
        scene.put_entries(at, &[page(50), onward]);
        assert_eq!(scene.walk(1, listed(at, 3)), Err(9));
        assert_eq!(scene.records(1), [(at, 16)]);
    }
    for (window, due) in [
        (page(15), Err(9)),
        (page(15) + 15, Err(9)),
        (page(15) + 16, Ok(4)),
    ] {
        let mut scene = opened();
        put_list(&mut scene, at, page(15), 3);
        scene.window.truncate(window as usize);
        let answer = scene.walk(1, listed(at, 3));
        assert_eq!(answer.map(|spans| spans.len()), due);
    }
}

#[test]
fn walk_9_also_where_the_list_is_held() {
    let mut scene = opened();
    let pages = put_list(&mut scene, 4_000, 0, 5);
    assert_eq!(scene.walk(1, listed(4_000, 5)), Ok(spans(&pages)));
    scene.window.truncate(4_039);
    assert_eq!(scene.walk(1, listed(4_000, 5)), Err(9));
    scene.window.resize(4_040, 0xee);
    assert_eq!(scene.walk(1, listed(4_000, 5)), Ok(spans(&pages)));
}

#[test]
fn walk_with_a_list_at_the_end_of_the_longest_window() {
    for (at, onward) in [(65_528, page(2)), (65_536 - 128, 0)] {
        let mut scene = opened();
        let pages = put_list(&mut scene, at, onward, 16);
        assert_eq!(scene.walk(1, listed(at, 16)), Ok(spans(&pages)));
    }
}

#[test]
fn walk_with_the_highest_addresses() {
    let mut scene = opened();
    scene.put_entries(512, &[HIGHEST; 16]);
    let spans = scene.walk(1, transfer(u64::MAX - 3, 512, 65_536));
    let mut expected = vec![(u64::MAX - 3, 4)];
    expected.extend([(HIGHEST, 4_096); 15]);
    expected.push((HIGHEST, 4_092));
    assert_eq!(spans, Ok(expected));
}

#[test]
fn walk_takes_any_pages_for_the_data() {
    let mut scene = opened();
    let pages = [0, page(1), page(2), page(2), page(123), page(5), 0];
    scene.put_entries(page(5), &pages);
    assert_eq!(scene.walk(1, listed(page(5), 7)), Ok(spans(&pages)));
}

#[test]
fn walk_23_the_list_has_no_room() {
    for (held, due) in [(4_096, Err(23)), (4_081, Err(23)), (4_080, Ok(3))] {
        let mut scene = Scene::with_records(1, &[(0, held)]);
        put_list(&mut scene, page(2), 0, 2);
        let answer = scene.walk(1, listed(page(2), 2));
        assert_eq!(answer.map(|spans| spans.len()), due);
        let bytes = if due.is_ok() { held + 16 } else { held };
        assert_eq!(scene.end(1).unwrap().1, bytes);
    }
}

#[test]
fn walk_24_the_list_would_be_the_65th_record() {
    for (records, due) in [(64, Err(24)), (63, Ok(4))] {
        let mut scene = Scene::with_records(1, &evenly(records, 4, 1));
        put_list(&mut scene, page(2), 0, 3);
        let answer = scene.walk(1, listed(page(2), 3));
        assert_eq!(answer.map(|spans| spans.len()), due);
        assert_eq!(scene.end(1).unwrap().0, 64);
    }
}

#[test]
fn walk_23_and_24_of_the_next_list_keep_what_the_first_one_brought() {
    let at = page(6) - 16;
    for (records, due) in [
        (vec![(0, 4_096 - 40)], Ok(())),
        (vec![(0, 4_096 - 39)], Err(23)),
        (vec![(0, 4_096 - 16)], Err(23)),
        (evenly(62, 4, 1), Ok(())),
        (evenly(63, 4, 1), Err(24)),
    ] {
        let mut scene = Scene::with_records(1, &records);
        put_list(&mut scene, at, page(9), 4);
        let mut expected = scene.clone();
        expected.fetch(1, at, 16).unwrap();
        if due.is_ok() {
            expected.fetch(1, page(9), 24).unwrap();
        }
        assert_eq!(scene.walk(1, listed(at, 4)).map(|_| ()), due);
        assert!(scene.book == expected.book && scene.store == expected.store);
    }
}

#[test]
fn a_wrong_entry_leaves_the_next_list_unfetched() {
    for wrong in [0, 1] {
        let mut scene = opened();
        let at = page(6) - 16;
        put_list(&mut scene, at, page(9), 4);
        scene.window[at as usize + 8 * wrong + 1] |= 8;
        assert_eq!(scene.walk(1, listed(at, 4)), Err(32));
        assert_eq!(scene.records(1), [(at, 16)]);
        assert_eq!(scene.end(1), Ok((1, 16)));
    }
}

#[test]
fn the_list_of_a_refused_walk_is_held() {
    let mut scene = opened();
    scene.put_entries(512, &[page(50), 7]);
    assert_eq!(scene.walk(1, listed(512, 2)), Err(32));
    scene.put_entries(512, &[page(60), page(61)]);
    assert_eq!(scene.walk(1, listed(512, 2)), Err(32));
    assert_eq!(scene.fetch(1, 512, 16), Ok((0, 16)));
    let held = [page(50).to_le_bytes(), 7u64.to_le_bytes()].concat();
    assert_eq!(scene.destination[..16], held);
    assert_eq!(scene.end(1), Ok((1, 16)));
    scene.begin(1).unwrap();
    let pages = [page(60), page(61)];
    assert_eq!(scene.walk(1, listed(512, 2)), Ok(spans(&pages)));
}

#[test]
fn a_list_is_replayed_where_it_is_held_and_fetched_elsewhere() {
    let mut scene = opened();
    let at = page(6) - 16;
    let before = put_list(&mut scene, at, page(9), 4);
    assert_eq!(scene.fetch(1, at - 4, 20), Ok((20, 0)));
    assert_eq!(scene.fetch(1, page(9) + 16, 100), Ok((100, 0)));
    scene.put_entries(at, &[page(70), page(10)]);
    scene.put_entries(page(9), &[page(71), page(72), page(73)]);
    let pages = [before[0], page(71), page(72), before[3]];
    assert_eq!(scene.walk(1, listed(at, 4)), Ok(spans(&pages)));
    assert_eq!(scene.records(1), [(at - 4, 20), (page(9), 116)]);
    assert_eq!(scene.end(1), Ok((2, 136)));
}

#[test]
fn a_list_that_the_command_wrote_is_replayed() {
    let mut scene = opened();
    let at = page(6) - 16;
    let written = [page(80).to_le_bytes(), page(9).to_le_bytes()].concat();
    assert_eq!(scene.own_write(1, at, &written), Ok((16, 16)));
    scene.put_entries(at, &[1, 1]);
    scene.put_entries(page(9), &[page(81), page(82), page(83)]);
    assert_eq!(scene.own_write(1, page(9) + 9, &[0x75, 0x31]), Ok((2, 2)));
    scene.put_entries(page(9) + 8, &[page(1)]);
    assert_eq!(scene.walk(1, listed(at, 4)), Err(32));
    assert_eq!(scene.own_write(1, page(9) + 9, &[0x70]), Ok((1, 0)));
    let pages = [page(80), page(81), 0x31_7000, page(83)];
    assert_eq!(scene.walk(1, listed(at, 4)), Ok(spans(&pages)));
    assert_eq!(scene.end(1), Ok((2, 40)));
}

#[test]
fn the_lists_of_walks_count_in_the_sum_of_end() {
    let mut scene = opened();
    let pages = put_list(&mut scene, 4_000, page(2), 14);
    assert_eq!(scene.fetch(1, 3_996, 8), Ok((8, 0)));
    for _ in 0..2 {
        assert_eq!(scene.walk(1, listed(4_000, 14)), Ok(spans(&pages)));
    }
    assert_eq!(scene.fetch(1, 4_090, 8), Ok((2, 6)));
    assert_eq!(scene.fetch(1, 8_190, 4), Ok((2, 2)));
    assert_eq!(scene.records(1), [(3_996, 102), (8_190, 26)]);
    assert_eq!(scene.end(1), Ok((2, 8 + 92 + 24 + 2 + 2)));
}
