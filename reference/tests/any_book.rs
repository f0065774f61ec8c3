//! Calls on books and stores that were not reached from the fresh book: each
//! book that holds together is to be served by the same rules.

use reference::book::{Book, CommandBook};
use sampling::generator::Generator;

use crate::model::Model;
use crate::random_lists::{one_call, Profile, Tally};
use crate::scene::{open_with, Scene};

/// An open command with any records that keep the rules, many of them with
/// one address between, at the low or at the high end of the addresses.
fn any_command(generator: &mut Generator) -> CommandBook {
    let count = generator.below(65);
    let longest = [1, 3, 64][generator.below(3) as usize];
    let widest = [1, 5, 900][generator.below(3) as usize];
    let mut records = vec![];
    let mut next = generator.below(40);
    for _ in 0..count {
        let start = next + generator.below(widest);
        let length = generator.between(1, longest);
        records.push((start, length));
        next = start + length + 1;
    }
    let shift = if generator.one_in(4) {
        65_537 - next
    } else {
        0
    };
    for record in &mut records {
        record.0 += shift;
    }
    open_with(&records)
}

#[test]
fn any_book_that_holds_together_is_served_by_the_rules() {
    let mut tally = Tally::default();
    let profile = Profile {
        seed: 9,
        lists: 500,
        calls: 8,
        window_length: 65_536,
        commands: 8,
        ends: 30,
        span: |generator, window| {
            let largest = [2, 70, 4_096][generator.below(3) as usize];
            let length = generator.between(0, largest);
            let start = if generator.one_in(3) {
                window - length
            } else {
                generator.below(3_000)
            };
            (start, length)
        },
    };
    for list in 0..profile.lists {
        let mut generator = Generator::new(1_000 * profile.seed + list);
        let mut book = Book::fresh();
        for command in &mut book.commands {
            if !generator.one_in(4) {
                *command = any_command(&mut generator);
            }
        }
        assert!(book.holds_together());
        let mut scene = Scene {
            book,
            store: generator.bytes(32_768),
            window: generator.bytes(profile.window_length),
            destination: vec![],
        };
        let mut model = Model::of_book(&scene.book, &scene.store, &scene.window);
        for _ in 0..profile.calls {
            one_call(&profile, &mut generator, &mut scene, &mut model, &mut tally);
        }
    }
    assert!(tally.accepted_fetches > 2_000, "{tally:?}");
    assert!(tally.joins > 150 && tally.mixed > 250, "{tally:?}");
    assert!(tally.mixed_writes > 25, "{tally:?}");
    assert!(tally.refused(23) > 50, "{tally:?}");
    assert!(tally.refused(24) > 10, "{tally:?}");
}

#[test]
fn written_bytes_come_to_stand_in_the_store_whatever_the_window_says() {
    let mut scene = Scene::with_records(4, &[(100, 2), (103, 3), (50_000, 1)]);
    let part = 4 * 4_096;
    scene.store[part..part + 8].copy_from_slice(&[1, 2, 3, 4, 5, 6, 7, 8]);
    scene.window.fill(0xee);
    assert_eq!(scene.own_write(4, 101, &[21, 22, 23]), Ok((3, 1)));
    let packed = [1, 21, 22, 23, 4, 5, 6, 8];
    assert_eq!(scene.store[part..part + 8], packed);
    assert_eq!(scene.own_write(4, 50_000, &[26]), Ok((1, 0)));
    let packed = [1, 21, 22, 23, 4, 5, 26, 8];
    assert_eq!(scene.store[part..part + 8], packed);
    assert_eq!(scene.records(4), [(100, 6), (50_000, 1)]);
}

#[test]
fn held_bytes_come_from_the_store_whatever_the_window_says() {
    let mut scene = Scene::with_records(4, &[(100, 2), (103, 3), (50_000, 1)]);
    scene.store[4 * 4_096..4 * 4_096 + 6].copy_from_slice(&[1, 2, 3, 4, 5, 6]);
    scene.window.fill(0xee);
    assert_eq!(scene.fetch(4, 100, 6), Ok((1, 5)));
    assert_eq!(scene.destination[..6], [1, 2, 0xee, 3, 4, 5]);
    assert_eq!(scene.fetch(4, 49_999, 3), Ok((2, 1)));
    assert_eq!(scene.destination[..3], [0xee, 6, 0xee]);
    assert_eq!(scene.records(4), [(100, 6), (49_999, 3)]);
    let part = &scene.store[4 * 4_096..][..9];
    assert_eq!(part, [1, 2, 0xee, 3, 4, 5, 0xee, 6, 0xee]);
}
