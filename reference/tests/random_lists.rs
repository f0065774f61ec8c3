//! 2,250 lists of calls from the fresh book, 250 of each profile. After each
//! call the reply, the book, the whole store, the window and the destination
//! are held against the model.

use std::collections::BTreeMap;

use reference::book::{Book, CommandBook, Span};
use sampling::generator::Generator;
use sampling::spans;

use crate::model::{Delivery, Model};
use crate::scene::{open_with, Scene};

/// How the calls of a list are chosen.
pub struct Profile {
    pub seed: u64,
    pub lists: u64,
    pub calls: u64,
    pub window_length: usize,
    /// So many commands take part, from 0 on.
    pub commands: u64,
    /// One call in so many is an end.
    pub ends: u64,
    /// Chooses the address and length of a fetch in a window of that length.
    pub span: fn(&mut Generator, u64) -> (u64, u64),
}

/// What happened in all lists of a profile.
#[derive(Debug, Default)]
pub struct Tally {
    pub accepted_fetches: u64,
    pub refusals: BTreeMap<u8, u64>,
    /// Fetches that joined several records into one.
    pub joins: u64,
    /// Fetches that had both fresh and replayed bytes.
    pub mixed: u64,
    /// Accepted fetches without a byte.
    pub empty: u64,
    /// Fetches for which some records were looked at and others not.
    pub ended_early: u64,
    /// Fetches of some bytes right behind which a record started.
    pub before_a_record: u64,
    /// Own writes over some addresses that were held and some that were not.
    pub mixed_writes: u64,
    /// Own writes that were refused with 23 or with 24.
    pub no_room_writes: [u64; 2],
}

impl Tally {
    /// How often a number was given.
    pub fn refused(&self, number: u8) -> u64 {
        self.refusals.get(&number).copied().unwrap_or(0)
    }

    pub fn count_refusal<Reply>(&mut self, answer: &Result<Reply, u8>) {
        if let Err(number) = answer {
            *self.refusals.entry(*number).or_default() += 1;
        }
    }

    /// Counts a search up to an address, and sees that it went no further than F-6
    /// of 02 (the agreed changes; docs/RULES.md has them too) allows: to one record
    /// more than start there or lower.
    fn count_search(&mut self, records: &[Span], end: u64, looked: u64) {
        let most = 1 + records.iter().filter(|record| record.start <= end).count();
        assert!(looked <= most as u64, "{looked} of at most {most}");
        self.ended_early += u64::from(0 < looked && looked < records.len() as u64);
        let before_one = records.iter().any(|record| record.start == end);
        self.before_a_record += u64::from(looked > 0 && before_one);
    }

    fn count_write(&mut self, answer: &Result<(u64, u64), u8>) {
        self.count_refusal(answer);
        match *answer {
            Ok((bytes, new)) => self.mixed_writes += u64::from(0 < new && new < bytes),
            Err(23) => self.no_room_writes[0] += 1,
            Err(24) => self.no_room_writes[1] += 1,
            Err(_) => {}
        }
    }
}

/// Runs all lists of a profile.
fn run(profile: &Profile) -> Tally {
    let mut tally = Tally::default();
    run_with(profile, |generator, scene, model| {
        one_call(profile, generator, scene, model, &mut tally);
    });
    tally
}

/// Runs all lists of a profile from the fresh book on, each call as it is made
/// here.
pub fn run_with(
    profile: &Profile,
    mut make_call: impl FnMut(&mut Generator, &mut Scene, &mut Model),
) {
    for list in 0..profile.lists {
        let mut generator = Generator::new(1_000 * profile.seed + list);
        let mut scene = Scene {
            book: Book::fresh(),
            store: generator.bytes(32_768),
            window: generator.bytes(profile.window_length),
            destination: vec![],
        };
        let mut model = Model::fresh(&scene.store, &scene.window);
        for _ in 0..profile.calls {
            make_call(&mut generator, &mut scene, &mut model);
        }
    }
}

/// Makes one call, after the host has perhaps written to the window, and
/// checks all that it left.
pub fn one_call(
    profile: &Profile,
    generator: &mut Generator,
    scene: &mut Scene,
    model: &mut Model,
    tally: &mut Tally,
) {
    if !scene.window.is_empty() && generator.one_in(2) {
        change_window(generator, scene, model);
    }
    let before = scene.book.clone();
    let command = if generator.one_in(100) {
        generator.between(8, 300)
    } else {
        generator.below(profile.commands)
    };
    if generator.one_in(profile.ends) {
        let expected = model.end(command);
        tally.count_refusal(&expected);
        assert_eq!(scene.end(command), expected);
    } else {
        match generator.below(20) {
            0 => {
                let expected = model.begin(command);
                tally.count_refusal(&expected);
                assert_eq!(scene.begin(command), expected);
            }
            1 => {
                let (address, data) = chosen_write(profile, generator);
                let expected = model.host_write(address, &data);
                tally.count_refusal(&expected);
                assert_eq!(scene.host_write(address, &data), expected);
            }
            2..=3 => {
                mostly_open(generator, command, scene, model);
                let (address, data) = chosen_write(profile, generator);
                let expected = model.own_write(command, address, &data);
                tally.count_write(&expected);
                assert_eq!(scene.own_write(command, address, &data), expected);
            }
            4 => {
                let index = generator.below(70);
                let expected = model.show(command, index);
                tally.count_refusal(&expected);
                assert_eq!(scene.show(command, index), expected);
            }
            _ => {
                mostly_open(generator, command, scene, model);
                one_fetch(profile, generator, command, scene, model, tally);
            }
        }
    }
    check_state(command, &before, scene, model);
}

/// Changes some bytes of the window, as the host may between two calls.
fn change_window(generator: &mut Generator, scene: &mut Scene, model: &mut Model) {
    for _ in 0..generator.below(40) {
        let place = generator.below(scene.window.len() as u64) as usize;
        scene.window[place] ^= 0x5b;
        model.window[place] ^= 0x5b;
    }
}

/// Begins a closed command before it is used, as one does but for now and then.
pub fn mostly_open(generator: &mut Generator, command: u64, scene: &mut Scene, model: &mut Model) {
    if command < 8 && !model.is_open(command) && !generator.one_in(8) {
        assert_eq!(scene.begin(command), model.begin(command));
    }
}

/// Address and data of a write that lies about where the fetches do.
fn chosen_write(profile: &Profile, generator: &mut Generator) -> (u64, Vec<u8>) {
    let (address, length) = (profile.span)(generator, profile.window_length as u64);
    (address, generator.bytes(length as usize))
}

/// Makes one fetch into a destination with some room behind the span.
fn one_fetch(
    profile: &Profile,
    generator: &mut Generator,
    command: u64,
    scene: &mut Scene,
    model: &mut Model,
    tally: &mut Tally,
) {
    let (address, length) = (profile.span)(generator, profile.window_length as u64);
    let room = length + generator.below(4);
    scene.destination = vec![generator.below(256) as u8; room as usize];
    let behind = scene.destination[length as usize..].to_vec();
    let before = scene.book.clone();
    let expected = model.fetch(command, address, length);
    tally.count_refusal(&expected);
    let answer = scene.fetched(command, address, length);
    match expected {
        Err(number) => assert_eq!(answer, Err(number)),
        Ok(Delivery { counts, bytes, met }) => {
            assert_eq!(answer, Ok(counts));
            assert_eq!(scene.destination, [bytes, behind].concat());
            tally.accepted_fetches += 1;
            tally.joins += u64::from(met > 1);
            tally.mixed += u64::from(counts.fresh > 0 && counts.replayed > 0);
            tally.empty += u64::from(length == 0);
            let records = before.commands[command as usize].records();
            tally.count_search(records, address + length, counts.looked);
        }
    }
}

/// Holds book, store and window against the model. Only the command of the
/// call may have changed in the book.
pub fn check_state(command: u64, before: &Book, scene: &Scene, model: &Model) {
    assert!(scene.store == model.store, "the store differs");
    assert!(scene.window == model.window, "the window differs");
    let mut expected = before.clone();
    if command < 8 {
        expected.commands[command as usize] = if model.is_open(command) {
            open_with(&model.records(command))
        } else {
            CommandBook::CLOSED
        };
    }
    assert!(scene.book == expected, "the book differs");
    assert!(scene.book.holds_together());
}

#[test]
fn many_small_spans_up_to_the_last_record() {
    let tally = run(&Profile {
        seed: 1,
        lists: 250,
        calls: 160,
        window_length: 1_500,
        commands: 1,
        ends: 200,
        span: spans::small,
    });
    assert!(tally.refused(24) > 2_500, "{tally:?}");
    assert!(tally.no_room_writes[1] > 250, "{tally:?}");
    assert!(tally.joins > 500, "{tally:?}");
    assert!(tally.ended_early > 10_000, "{tally:?}");
    assert!(tally.before_a_record > 500, "{tally:?}");
}

#[test]
fn large_spans_up_to_the_last_held_byte() {
    let tally = run(&Profile {
        seed: 2,
        lists: 250,
        calls: 40,
        window_length: 9_000,
        commands: 2,
        ends: 20,
        span: spans::large,
    });
    assert!(tally.refused(23) > 2_500, "{tally:?}");
    assert!(tally.no_room_writes[0] > 250, "{tally:?}");
    assert!(tally.refused(4) > 100, "{tally:?}");
    assert!(tally.mixed > 500, "{tally:?}");
}

#[test]
fn overlapping_spans_in_a_narrow_place() {
    let tally = run(&Profile {
        seed: 3,
        lists: 250,
        calls: 90,
        window_length: 700,
        commands: 2,
        ends: 100,
        span: spans::overlapping,
    });
    assert!(tally.joins > 1_000 && tally.mixed > 2_500, "{tally:?}");
    assert!(tally.mixed_writes > 500, "{tally:?}");
}

#[test]
fn touching_spans_and_some_across_the_borders() {
    let tally = run(&Profile {
        seed: 4,
        lists: 250,
        calls: 60,
        window_length: 512,
        commands: 1,
        ends: 60,
        span: spans::touching,
    });
    assert!(tally.joins > 250 && tally.mixed > 1_000, "{tally:?}");
}

#[test]
fn single_bytes_in_a_row_and_those_between() {
    let tally = run(&Profile {
        seed: 10,
        lists: 250,
        calls: 250,
        window_length: 260,
        commands: 1,
        ends: 250,
        span: spans::every_other,
    });
    assert!(tally.refused(24) > 1_000, "{tally:?}");
    assert!(tally.joins > 1_000, "{tally:?}");
    assert!(tally.before_a_record > 2_500, "{tally:?}");
}

#[test]
fn nested_spans_in_and_around_each_other() {
    let tally = run(&Profile {
        seed: 5,
        lists: 250,
        calls: 30,
        window_length: 4_300,
        commands: 2,
        ends: 15,
        span: spans::nested,
    });
    assert!(tally.mixed > 1_000, "{tally:?}");
    assert_eq!(tally.joins, 0);
}

#[test]
fn empty_spans_and_the_end_of_the_window() {
    let tally = run(&Profile {
        seed: 6,
        lists: 250,
        calls: 60,
        window_length: 65_536,
        commands: 2,
        ends: 30,
        span: spans::at_the_end,
    });
    assert!(tally.refused(9) > 2_500, "{tally:?}");
    assert!(tally.empty > 1_000, "{tally:?}");
}

#[test]
fn all_eight_commands_with_many_ends_and_begins() {
    let tally = run(&Profile {
        seed: 7,
        lists: 250,
        calls: 120,
        window_length: 2_000,
        commands: 8,
        ends: 8,
        span: spans::medium,
    });
    for number in [6, 9, 21, 22, 25] {
        assert!(tally.refused(number) > 100, "{tally:?}");
    }
}

#[test]
fn spans_of_all_sizes_over_the_whole_window() {
    let tally = run(&Profile {
        seed: 8,
        lists: 250,
        calls: 60,
        window_length: 16_384,
        commands: 8,
        ends: 60,
        span: spans::any_size,
    });
    assert!(tally.accepted_fetches > 8_000, "{tally:?}");
    assert!(tally.refused(9) > 100, "{tally:?}");
}
