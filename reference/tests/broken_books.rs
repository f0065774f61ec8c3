//! Every way in which a book can fail to hold together (20), each alone, and
//! the books that only just hold together.

use reference::book::{Book, CommandBook, Span};
use sampling::generator::Generator;

use crate::scene::{evenly, open_with, Scene};
use crate::walk_scene::transfer;

/// A command whose entry at a place is set to a span, all else as it was.
fn with_entry(mut command: CommandBook, place: usize, start: u64, length: u64) -> CommandBook {
    command.entries[place] = Span { start, length };
    command
}

/// A command whose count is set, all else as it was.
fn with_count(mut command: CommandBook, count: u64) -> CommandBook {
    command.count = count;
    command
}

/// A command that is closed, all else as it was.
fn closed(mut command: CommandBook) -> CommandBook {
    command.open = false;
    command
}

/// Commands that break exactly the rule they are named after.
fn broken_commands() -> Vec<(&'static str, CommandBook)> {
    let full = open_with(&evenly(64, 4, 1));
    vec![
        ("descending", open_with(&[(20, 4), (10, 4)])),
        (
            "descending at the end",
            open_with(&[(1, 1), (20, 4), (30, 4), (10, 4)]),
        ),
        ("length 0", open_with(&[(10, 0)])),
        ("length 0 at address 0", open_with(&[(0, 0)])),
        (
            "length 0 among others",
            open_with(&[(10, 4), (20, 0), (30, 4)]),
        ),
        ("one byte shared", open_with(&[(10, 4), (13, 4)])),
        ("touching", open_with(&[(10, 4), (14, 4)])),
        ("touching at address 0", open_with(&[(0, 1), (1, 1)])),
        (
            "touching at the last address",
            open_with(&[(65_534, 1), (65_535, 1)]),
        ),
        (
            "touching behind others",
            open_with(&[(0, 4), (5, 4), (10, 1), (11, 3)]),
        ),
        ("touching as the 63rd and 64th record", {
            let mut records = evenly(64, 4, 1);
            records[62].1 = 4;
            open_with(&records)
        }),
        ("64 touching records", open_with(&evenly(64, 1, 1))),
        (
            "64 touching records of 64 bytes",
            open_with(&evenly(64, 64, 64)),
        ),
        ("the same start", open_with(&[(10, 4), (10, 6)])),
        ("the same record twice", open_with(&[(10, 4), (10, 4)])),
        ("one inside another", open_with(&[(10, 9), (12, 2)])),
        ("65 records", with_count(full, 65)),
        ("256 records", with_count(full, 256)),
        ("2^32 records", with_count(full, 1 << 32)),
        ("2^64 - 1 records", with_count(full, u64::MAX)),
        (
            "65 records, all entries zero",
            with_count(open_with(&[]), 65),
        ),
        ("4,097 bytes in one record", open_with(&[(0, 4_097)])),
        (
            "4,097 bytes in two records",
            open_with(&[(0, 4_096), (5_000, 1)]),
        ),
        ("4,097 bytes in 64 records", {
            let mut records = evenly(64, 100, 64);
            records[63].1 = 65;
            open_with(&records)
        }),
        ("past 65,535 by one", open_with(&[(65_535, 2)])),
        ("past 65,535 from its start", open_with(&[(65_536, 1)])),
        (
            "past 65,535 behind another",
            open_with(&[(1, 1), (65_530, 7)]),
        ),
        ("past 2^64", open_with(&[(u64::MAX, 1)])),
        ("past 2^64 by its length", open_with(&[(1, u64::MAX)])),
        (
            "lengths whose sum wraps",
            open_with(&[(1, u64::MAX), (2, u64::MAX), (3, 10)]),
        ),
        ("closed with a record", closed(open_with(&[(10, 4)]))),
        (
            "closed with 64 records",
            closed(open_with(&evenly(64, 4, 1))),
        ),
        (
            "closed with an entry left over",
            with_entry(CommandBook::CLOSED, 0, 10, 4),
        ),
        (
            "closed with the last entry left over",
            with_entry(CommandBook::CLOSED, 63, 10, 4),
        ),
        ("closed with a count", with_count(CommandBook::CLOSED, 1)),
        ("unused start", with_entry(open_with(&[(10, 4)]), 1, 20, 0)),
        ("unused length", with_entry(open_with(&[(10, 4)]), 1, 0, 1)),
        ("unused last entry", with_entry(open_with(&[]), 63, 20, 4)),
        ("count one too low", with_count(full, 63)),
    ]
}

/// Commands at the edge of the rules that still keep them all.
fn sound_commands() -> Vec<(&'static str, CommandBook)> {
    vec![
        ("closed", CommandBook::CLOSED),
        ("no records", open_with(&[])),
        ("a byte at 0", open_with(&[(0, 1)])),
        (
            "gaps of one byte",
            open_with(&[(0, 4), (5, 4), (10, 1), (65_533, 1), (65_535, 1)]),
        ),
        ("64 records", open_with(&evenly(64, 2, 1))),
        (
            "64 records up to the last address",
            open_with(&(0..64).map(|at| (65_409 + 2 * at, 1)).collect::<Vec<_>>()),
        ),
        ("4,096 bytes in one record", open_with(&[(7, 4_096)])),
        (
            "4,096 bytes in 64 records",
            open_with(&evenly(64, 1_000, 64)),
        ),
        ("the last address", open_with(&[(65_535, 1)])),
        ("up to the last address", open_with(&[(61_440, 4_096)])),
    ]
}

#[test]
fn each_broken_book_is_refused_by_every_call_that_takes_one() {
    for (name, broken) in broken_commands() {
        for place in 0..8u64 {
            let mut scene = Scene::fresh(64);
            for command in [1, 6] {
                scene.begin(command).unwrap();
            }
            scene.fetch(1, 0, 4).unwrap();
            scene.fetch(6, 0, 4).unwrap();
            scene.book.commands[place as usize] = broken;
            assert!(!scene.book.holds_together(), "{name}");
            for command in 0..8 {
                assert_eq!(scene.begin(command), Err(20), "{name}");
                assert_eq!(scene.fetch(command, 0, 2), Err(20), "{name}");
                assert_eq!(scene.fetch(command, 0, 0), Err(20), "{name}");
                assert_eq!(scene.end(command), Err(20), "{name}");
                assert_eq!(scene.own_write(command, 0, &[7]), Err(20), "{name}");
                assert_eq!(scene.own_write(command, 0, &[]), Err(20), "{name}");
                assert_eq!(scene.show(command, 0), Err(20), "{name}");
                let walk = transfer(0, 0, 1);
                assert_eq!(scene.walk(command, walk), Err(20), "{name}");
            }
            assert_eq!(scene.host_write(0, &[7]), Ok(1), "{name}");
        }
    }
}

#[test]
fn each_sound_book_is_taken() {
    for (name, sound) in sound_commands() {
        for place in 0..8u64 {
            let mut scene = Scene::fresh(64);
            scene.book.commands[place as usize] = sound;
            assert!(scene.book.holds_together(), "{name}");
            let other = (place + 1) % 8;
            assert_eq!(scene.begin(other), Ok(()), "{name}");
            assert_eq!(scene.fetch(other, 3, 2), Ok((2, 0)), "{name}");
            assert_eq!(scene.own_write(other, 3, &[7]), Ok((1, 0)), "{name}");
            assert_eq!(scene.show(other, 0), Ok((3, 2)), "{name}");
            let walk = scene.walk(other, transfer(8, 0, 1));
            assert_eq!(walk, Ok(vec![(8, 1)]), "{name}");
            assert_eq!(scene.end(other), Ok((1, 2)), "{name}");
            assert_eq!(scene.book.commands[place as usize], sound, "{name}");
        }
    }
}

/// The rules of the book, taken one by one and byte by byte: no byte of a
/// record, and none right before or behind it, is in an earlier one.
fn keeps_every_rule(book: &Book) -> bool {
    book.commands.iter().all(|command| {
        let used = command.count.min(64) as usize;
        let mut covered = vec![false; 65_537];
        let mut last_start = None;
        let mut total = 0;
        for record in &command.entries[..used] {
            let past = u128::from(record.start) + u128::from(record.length) > 65_536;
            let ascending = last_start.is_none_or(|start| start < record.start);
            if record.length == 0 || past || !ascending {
                return false;
            }
            let end = record.start + record.length;
            let before = record.start.saturating_sub(1);
            if covered[before as usize..=end as usize].contains(&true) {
                return false;
            }
            covered[record.start as usize..end as usize].fill(true);
            total += record.length;
            last_start = Some(record.start);
        }
        let rest_is_zero = command.entries[used..]
            .iter()
            .all(|entry| entry.start == 0 && entry.length == 0);
        command.count <= 64
            && total <= 4_096
            && rest_is_zero
            && (command.open || command.count == 0)
    })
}

/// Changes one thing in the book, not caring whether it still holds together.
fn change_one_thing(book: &mut Book, generator: &mut Generator) {
    let command = &mut book.commands[generator.below(8) as usize];
    let near = command.count.min(63);
    let place = generator.between(near.saturating_sub(2), near) as usize;
    match generator.below(6) {
        0 => command.open = !command.open,
        1 => command.count = command.count.wrapping_add(1),
        2 => command.count = command.count.wrapping_sub(1),
        3 => command.entries.swap(place, place.saturating_sub(1)),
        4 => {
            let start = &mut command.entries[place].start;
            *start = (*start + generator.below(9)).saturating_sub(4);
        }
        _ => {
            let length = &mut command.entries[place].length;
            *length = (*length + generator.below(9)).saturating_sub(4);
        }
    }
}

#[test]
fn holds_together_agrees_with_the_rules_taken_byte_by_byte() {
    let mut generator = Generator::new(20);
    let mut seen = [0, 0];
    for _ in 0..2_000 {
        let mut book = Book::fresh();
        for command in &mut book.commands {
            if generator.one_in(2) {
                let count = generator.below(65);
                let distance = generator.between(2, 70);
                *command = open_with(&evenly(count, distance, (distance - 1).min(64)));
            }
        }
        for _ in 0..generator.below(3) {
            change_one_thing(&mut book, &mut generator);
        }
        let expected = keeps_every_rule(&book);
        assert_eq!(book.holds_together(), expected);
        seen[usize::from(expected)] += 1;
    }
    assert!(seen[0] > 300 && seen[1] > 300, "{seen:?}");
}
