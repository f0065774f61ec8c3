//! The marked situations A to K of 01 (the agreed scope), B as F-1 and J as F-3
//! of 02 (the agreed changes) have them, each for all eight commands.
//! docs/RULES.md has their rules.

use reference::frames::read_frame;

use crate::scene::Scene;

/// Changes every byte of the window, as the host may between two calls.
fn change_window(scene: &mut Scene) {
    for byte in &mut scene.window {
        *byte = byte.wrapping_add(101);
    }
}

#[test]
fn situation_a_a_wider_span_replays_the_middle() {
    for command in 0..8 {
        let mut scene = Scene::with_open(command);
        let first = scene.window_at(16, 4);
        assert_eq!(scene.fetch(command, 16, 4), Ok((4, 0)));
        assert_eq!(scene.destination[..4], first);
        assert_eq!(scene.records(command), [(16, 4)]);

        change_window(&mut scene);
        let expected = [scene.window_at(14, 2), first, scene.window_at(20, 2)].concat();
        assert_eq!(scene.fetch(command, 14, 8), Ok((4, 4)));
        assert_eq!(scene.destination[..8], expected);
        assert_eq!(scene.records(command), [(14, 8)]);
        assert_eq!(scene.end(command), Ok((1, 8)));
    }
}

#[test]
fn situation_b_a_span_that_touches_a_record_is_joined_with_it() {
    for command in 0..8 {
        let mut scene = Scene::with_open(command);
        let first = scene.window_at(0, 4);
        assert_eq!(scene.fetch(command, 0, 4), Ok((4, 0)));
        assert_eq!(scene.destination[..4], first);
        let second = scene.window_at(4, 4);
        assert_eq!(scene.fetch(command, 4, 4), Ok((4, 0)));
        assert_eq!(scene.destination[..4], second);
        assert_eq!(scene.records(command), [(0, 8)]);

        change_window(&mut scene);
        let expected = [&first[2..], &second[..2]].concat();
        assert_eq!(scene.fetch(command, 2, 4), Ok((0, 4)));
        assert_eq!(scene.destination[..4], expected);
        assert_eq!(scene.records(command), [(0, 8)]);
        assert_eq!(scene.end(command), Ok((1, 8)));
    }
}

#[test]
fn situation_c_an_empty_span_at_the_windows_end_adds_no_record() {
    for command in 0..8 {
        let mut scene = Scene::with_open(command);
        let before = scene.clone();
        assert_eq!(scene.fetch(command, 16_384, 0), Ok((0, 0)));
        assert!(scene == before);
        assert_eq!(scene.records(command), []);
    }
}

#[test]
fn situation_d_the_last_byte_is_in_and_the_next_is_out() {
    for command in 0..8 {
        let mut scene = Scene::with_open(command);
        let last = scene.window_at(16_383, 1);
        assert_eq!(scene.fetch(command, 16_383, 1), Ok((1, 0)));
        assert_eq!(scene.destination[..1], last);
        assert_eq!(scene.fetch(command, 16_384, 1), Err(9));
        assert_eq!(scene.records(command), [(16_383, 1)]);
    }
}

#[test]
fn situation_e_a_full_command_takes_no_fresh_byte_but_replays() {
    for command in 0..8 {
        let mut scene = Scene::with_open(command);
        let first = scene.window_at(0, 4_096);
        assert_eq!(scene.fetch(command, 0, 4_096), Ok((4_096, 0)));
        assert_eq!(scene.destination[..4_096], first);
        assert_eq!(scene.fetch(command, 4_096, 1), Err(23));

        change_window(&mut scene);
        scene.destination.fill(0);
        assert_eq!(scene.fetch(command, 0, 4_096), Ok((0, 4_096)));
        assert_eq!(scene.destination[..4_096], first);
        assert_eq!(scene.records(command), [(0, 4_096)]);
        assert_eq!(scene.end(command), Ok((1, 4_096)));
    }
}

#[test]
fn situation_f_records_are_counted_after_joining() {
    for command in 0..8 {
        let mut scene = Scene::with_open(command);
        for address in (0..=126).step_by(2) {
            let byte = scene.window_at(address as usize, 1);
            assert_eq!(scene.fetch(command, address, 1), Ok((1, 0)));
            assert_eq!(scene.destination[..1], byte);
        }
        let singles: Vec<(u64, u64)> = (0..64).map(|place| (2 * place, 1)).collect();
        assert_eq!(scene.records(command), singles);
        assert_eq!(scene.fetch(command, 128, 1), Err(24));
        assert_eq!(scene.records(command), singles);

        let expected = scene.window_at(0, 3);
        assert_eq!(scene.fetch(command, 0, 3), Ok((1, 2)));
        assert_eq!(scene.destination[..3], expected);
        let joined = [&[(0, 3)], &singles[2..]].concat();
        assert_eq!(joined.len(), 63);
        assert_eq!(scene.records(command), joined);
        assert_eq!(scene.end(command), Ok((63, 65)));
    }
}

#[test]
fn situation_g_an_open_command_cannot_begin_again() {
    for command in 0..8 {
        let mut scene = Scene::with_open(command);
        assert_eq!(scene.begin(command), Err(22));
    }
}

#[test]
fn situation_h_a_fetch_of_4097_bytes_is_too_long() {
    for command in 0..8 {
        let mut scene = Scene::with_open(command);
        assert_eq!(scene.fetch(command, 0, 4_097), Err(4));
        assert_eq!(scene.records(command), []);
    }
}

#[test]
fn situation_i_three_frames_that_cannot_be_read() {
    let number_of = |bytes: &[u8]| read_frame(bytes).unwrap_err().number();
    assert_eq!(number_of(&[0x28, 0x00, 0x40, 0x00, 0x81]), 3);
    assert_eq!(number_of(&[0x28, 0x00, 0x40, 0x00]), 1);
    assert_eq!(number_of(&[0xa0, 0x00, 0x00, 0x00, 0x00]), 2);
}

#[test]
fn situation_j_a_command_sees_its_own_write() {
    for command in 0..8 {
        let mut scene = Scene::with_open(command);
        let old = scene.window_at(16, 2);
        let new = [old[0] ^ 0xff, old[1] ^ 0xff];
        assert_eq!(scene.fetch(command, 16, 2), Ok((2, 0)));
        assert_eq!(scene.destination[..2], old);
        assert_eq!(scene.own_write(command, 16, &new), Ok((2, 0)));
        assert_eq!(scene.window_at(16, 2), new);

        change_window(&mut scene);
        assert_eq!(scene.fetch(command, 16, 2), Ok((0, 2)));
        assert_eq!(scene.destination[..2], new);
        assert_eq!(scene.records(command), [(16, 2)]);
        assert_eq!(scene.end(command), Ok((1, 2)));
    }
}

#[test]
fn situation_j_reaches_another_command_through_the_window_alone() {
    for command in 0..8 {
        let (before, behind) = ((command + 1) % 8, (command + 2) % 8);
        let mut scene = Scene::with_open(command);
        scene.begin(before).unwrap();
        scene.begin(behind).unwrap();
        let old = scene.window_at(16, 2);
        let new = [old[0] ^ 0xff, old[1] ^ 0xff];
        assert_eq!(scene.fetch(before, 16, 2), Ok((2, 0)));
        assert_eq!(scene.own_write(command, 16, &new), Ok((2, 2)));
        assert_eq!(scene.fetch(before, 16, 2), Ok((0, 2)));
        assert_eq!(scene.destination[..2], old);
        assert_eq!(scene.host_write(17, &[old[1]]), Ok(1));
        assert_eq!(scene.fetch(behind, 16, 2), Ok((2, 0)));
        assert_eq!(scene.destination[..2], [new[0], old[1]]);
        assert_eq!(scene.fetch(command, 16, 2), Ok((0, 2)));
        assert_eq!(scene.destination[..2], new);
    }
}

#[test]
fn situation_k_after_end_and_begin_the_new_bytes_come() {
    for command in 0..8 {
        let mut scene = Scene::with_open(command);
        let old = scene.window_at(40, 3);
        let new = [old[0] ^ 0xff, old[1] ^ 0xff, old[2] ^ 0xff];
        assert_eq!(scene.fetch(command, 40, 3), Ok((3, 0)));
        assert_eq!(scene.destination[..3], old);
        assert_eq!(scene.host_write(40, &new), Ok(3));
        assert_eq!(scene.end(command), Ok((1, 3)));
        assert_eq!(scene.begin(command), Ok(()));
        assert_eq!(scene.fetch(command, 40, 3), Ok((3, 0)));
        assert_eq!(scene.destination[..3], new);
        assert_eq!(scene.records(command), [(40, 3)]);
    }
}
