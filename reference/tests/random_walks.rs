//! 450 lists of calls from the fresh book, 150 of each profile; every other call
//! is a walk. After each walk its spans, the number of records looked at, the book,
//! the whole store and the window are held against the model.

use reference::walk::Transfer;
use sampling::generator::Generator;
use sampling::spans;

use crate::model::Model;
use crate::random_lists::{check_state, mostly_open, one_call, run_with, Profile, Tally};
use crate::scene::Scene;
use crate::walk_scene::{transfer, Desk};

/// Page entries from an address on.
type Entries = (u64, Vec<u64>);

/// What happened to the walks of all lists of a profile.
#[derive(Debug, Default)]
struct Walks {
    all: Tally,
    /// Accepted walks by the number of lists: none, one and two.
    accepted: [u64; 3],
    /// Accepted walks with lists of which every byte was held.
    replayed: u64,
    /// Refused walks that left something in the book.
    kept: u64,
    /// Accepted walks that looked at more records than one fetch can.
    searched: u64,
}

/// Runs all lists of a profile.
fn run(profile: &Profile) -> Walks {
    let mut walks = Walks::default();
    let mut others = Tally::default();
    run_with(profile, |generator, scene, model| {
        if generator.one_in(2) {
            one_walk(profile, generator, scene, model, &mut walks);
        } else {
            one_call(profile, generator, scene, model, &mut others);
        }
    });
    walks
}

/// Makes one walk, mostly after the host has put entries where it looks for them.
fn one_walk(
    profile: &Profile,
    generator: &mut Generator,
    scene: &mut Scene,
    model: &mut Model,
    walks: &mut Walks,
) {
    let command = generator.below(profile.commands);
    mostly_open(generator, command, scene, model);
    let (walk, lists) = chosen_walk(generator, profile.window_length as u64);
    if !generator.one_in(5) {
        for (address, entries) in &lists {
            put(scene, *address, entries);
        }
        model.window.copy_from_slice(&scene.window);
    }
    let before = scene.book.clone();
    let room = |generator: &mut Generator| 17 + generator.below(3) as usize;
    let mut desk = Desk::of(111 + room(generator), room(generator), room(generator));
    let expected = model.walk(command, walk);
    assert_eq!(
        scene.walked_at(&mut desk, command, walk),
        expected,
        "{walk:?}"
    );
    check_state(command, &before, scene, model);

    walks.all.count_refusal(&expected);
    let same = scene.book == before;
    match expected {
        Ok((_, looked)) => {
            walks.searched += u64::from(looked > 64);
            walks.accepted[lists.len()] += 1;
            walks.replayed += u64::from(same && !lists.is_empty());
        }
        Err(_) => walks.kept += u64::from(!same),
    }
}

/// Puts entries into the window, as far as it goes.
fn put(scene: &mut Scene, address: u64, entries: &[u64]) {
    let room = (scene.window.len() as u64).saturating_sub(address) / 8;
    let count = entries.len().min(room as usize);
    if count > 0 {
        scene.put_entries(address, &entries[..count]);
    }
}

/// A walk, and the lists that it needs: none, one, or one that goes on.
fn chosen_walk(generator: &mut Generator, window: u64) -> (Transfer, Vec<Entries>) {
    let offset = 4 * [0, 1, 1_023, generator.below(1_024)][generator.below(4) as usize];
    let prp1 = any_page(generator) + offset;
    let length = match generator.below(20) {
        0 => [0, 65_537, 1 << 32, u64::MAX][generator.below(4) as usize],
        1..=4 => generator.between(1, 8_192),
        5..=9 => 4_096 * generator.between(1, 16) - offset,
        10 => 65_536,
        _ => generator.between(1, 65_536),
    };
    let behind = (offset + length.min(65_537)).div_ceil(4_096).max(1) - 1;
    let (prp2, lists) = match behind {
        0..=1 => (any_page(generator), vec![]),
        _ => chosen_lists(generator, window, behind),
    };
    let off = |generator: &mut Generator, by| u64::from(generator.one_in(30)) * by;
    let walk = transfer(prp1 + off(generator, 2), prp2 + off(generator, 4), length);
    (walk, lists)
}

/// Where a list of so many pages starts, its entries, and those of the list that
/// it leads to if they do not fit. Now and then an entry is wrong.
fn chosen_lists(generator: &mut Generator, window: u64, count: u64) -> (u64, Vec<Entries>) {
    let most = [9, 20][generator.below(2) as usize];
    let fitting = generator.between(1, most);
    let start = list_page(generator, window) + 4_096 - 8 * fitting;
    let here = fitting.min(count);
    let mut pages = |count| (0..count).map(|_| any_page(generator)).collect();
    let mut lists: Vec<Entries> = vec![(start, pages(here))];
    if count > fitting {
        let rest = pages(count + 1 - fitting);
        let onward = list_page(generator, window);
        lists[0].1[fitting as usize - 1] = onward;
        lists.push((onward, rest));
    }
    if generator.one_in(6) {
        let list = generator.below(lists.len() as u64) as usize;
        let entries = &mut lists[list].1;
        let place = generator.below(entries.len() as u64) as usize;
        entries[place] |= 1 << generator.below(12);
    }
    (start, lists)
}

/// The page of a list, rarely one that the window does not have.
fn list_page(generator: &mut Generator, window: u64) -> u64 {
    let pages = window / 4_096 + u64::from(generator.one_in(10));
    4_096 * generator.below(pages)
}

/// The address of any page, low or high or the last one.
fn any_page(generator: &mut Generator) -> u64 {
    let pages = [16, 1 << 30, 1 << 47][generator.below(3) as usize];
    match generator.below(12) {
        0 => u64::MAX - 4_095,
        _ => 4_096 * generator.below(pages),
    }
}

#[test]
fn walks_among_calls_of_all_sizes() {
    let walks = run(&Profile {
        seed: 11,
        lists: 150,
        calls: 60,
        window_length: 65_536,
        commands: 2,
        ends: 30,
        span: spans::any_size,
    });
    assert!(walks.accepted.iter().all(|count| *count > 500), "{walks:?}");
    for number in [9, 21, 31, 32] {
        assert!(walks.all.refused(number) > 10, "{walks:?}");
    }
    assert!(walks.kept > 250 && walks.replayed > 25, "{walks:?}");
}

#[test]
fn walks_over_few_pages_that_are_held_up_to_the_most() {
    let walks = run(&Profile {
        seed: 12,
        lists: 150,
        calls: 60,
        window_length: 9_000,
        commands: 1,
        ends: 40,
        span: spans::large,
    });
    assert!(walks.replayed > 250, "{walks:?}");
    assert!(walks.all.refused(23) > 100, "{walks:?}");
    assert!(walks.accepted.iter().all(|count| *count > 100), "{walks:?}");
}

#[test]
fn walks_of_commands_with_many_records() {
    let walks = run(&Profile {
        seed: 13,
        lists: 150,
        calls: 200,
        window_length: 65_536,
        commands: 1,
        ends: 400,
        span: |generator, _| spans::every_other(generator, 2_000),
    });
    assert!(walks.all.refused(24) > 100, "{walks:?}");
    assert!(walks.kept > 250 && walks.searched > 500, "{walks:?}");
}
