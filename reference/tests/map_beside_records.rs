//! The byte map and the record engine, given the same begins, fetches, own writes
//! and ends of one command over windows of at most 4,096 bytes (F-2 and F-3 in
//! 02, the agreed changes; docs/RULES.md has them too). After each call the
//! answers, but for the number of records looked at (F-6), the destinations and
//! the windows are equal, the runs are the command's records, the ones are their
//! total, and the held values are the bytes at the front of its part of the store.

use std::collections::BTreeMap;

use sampling::generator::Generator;
use sampling::spans;

use crate::map_scene::MapScene;
use crate::scene::Scene;

/// How the calls of a list are chosen.
struct Profile {
    seed: u64,
    /// Lists for each of the eight commands.
    lists: u64,
    calls: u64,
    /// The longest window of a list.
    window_length: usize,
    /// One call in so many is a begin or an end.
    ends: u64,
    /// Chooses the address and length of a fetch in a window of that length.
    span: fn(&mut Generator, u64) -> (u64, u64),
}

/// What was compared in all lists of a profile.
#[derive(Debug, Default)]
struct Tally {
    calls: u64,
    accepted: BTreeMap<&'static str, u64>,
    refusals: BTreeMap<(&'static str, u8), u64>,
    /// Fetches that had both fresh and replayed bytes.
    mixed: u64,
    /// Own writes over some addresses that were held and some that were not.
    mixed_writes: u64,
    most_runs: usize,
}

impl Tally {
    fn refused(&self, name: &'static str, number: u8) -> u64 {
        self.refusals.get(&(name, number)).copied().unwrap_or(0)
    }

    fn accepted(&self, name: &'static str) -> u64 {
        self.accepted.get(name).copied().unwrap_or(0)
    }

    fn count<Reply>(&mut self, name: &'static str, answer: &Result<Reply, u8>) {
        self.calls += 1;
        match answer {
            Ok(_) => *self.accepted.entry(name).or_default() += 1,
            Err(number) => *self.refusals.entry((name, *number)).or_default() += 1,
        }
    }
}

/// Both engines, the record engine serving one command.
struct Both {
    command: u64,
    records: Scene,
    map: MapScene,
}

impl Both {
    fn fresh(command: u64) -> Both {
        Both {
            command,
            records: Scene::fresh(0),
            map: MapScene::fresh(0),
        }
    }

    /// Lends both the same window and the same destination.
    fn lend(&mut self, window: &[u8], destination: Vec<u8>) {
        self.records.window = window.to_vec();
        self.map.window = window.to_vec();
        self.records.destination.clone_from(&destination);
        self.map.destination = destination;
    }

    fn begin(&mut self, tally: &mut Tally) {
        let answer = self.map.begin();
        assert_eq!(answer, self.records.begin(self.command));
        tally.count("begin", &answer);
    }

    fn end(&mut self, tally: &mut Tally) {
        let answer = self.map.end();
        assert_eq!(answer, self.records.end(self.command));
        tally.count("end", &answer);
    }

    fn fetch(&mut self, address: u64, length: u64, tally: &mut Tally) {
        let answer = self.map.fetch(address, length);
        assert_eq!(answer, self.records.fetch(self.command, address, length));
        tally.count("fetch", &answer);
        if let Ok((fresh, replayed)) = answer {
            tally.mixed += u64::from(fresh > 0 && replayed > 0);
        }
    }

    fn own_write(&mut self, address: u64, data: &[u8], tally: &mut Tally) {
        let answer = self.map.own_write(address, data);
        assert_eq!(answer, self.records.own_write(self.command, address, data));
        tally.count("own write", &answer);
        if let Ok((bytes, new)) = answer {
            tally.mixed_writes += u64::from(0 < new && new < bytes);
        }
    }

    /// Holds what the one engine has against what the other has.
    fn compare(&mut self, tally: &mut Tally) {
        assert!(self.map.destination == self.records.destination);
        assert!(self.map.window == self.records.window);
        let open = self.records.book.commands[self.command as usize].open;
        assert_eq!(self.map.map.open, u64::from(open));
        let records = if open {
            self.records.records(self.command)
        } else {
            vec![]
        };
        assert_eq!(self.map.runs(), records);
        let total: u64 = records.iter().map(|record| record.1).sum();
        assert_eq!(self.map.map.held(), total);
        let addresses = records
            .iter()
            .flat_map(|&(start, length)| start..start + length);
        let values = addresses.map(|address| self.map.map.values[address as usize]);
        let part = &self.records.store[4_096 * self.command as usize..];
        assert!(values.eq(part[..total as usize].iter().copied()));
        tally.most_runs = tally.most_runs.max(records.len());
    }
}

/// Lends a window of the profile's length or now and then a shorter one, in which
/// the host has perhaps written, and a destination with some room, or now and then
/// too little.
fn lend(both: &mut Both, window: &mut [u8], length: u64, generator: &mut Generator) {
    if generator.one_in(2) {
        for _ in 0..generator.below(40) {
            let place = generator.below(window.len() as u64) as usize;
            window[place] ^= 0x5b;
        }
    }
    let shorter = generator.below(window.len() as u64 + 1) as usize;
    let lent = if generator.one_in(12) {
        shorter
    } else {
        window.len()
    };
    let room = if generator.one_in(30) {
        length.saturating_sub(1)
    } else {
        length + generator.below(4)
    };
    let room = room.min(9_000) as usize;
    both.lend(&window[..lent], vec![generator.below(256) as u8; room]);
}

/// Runs all lists of a profile for each command.
fn run(profile: &Profile) -> Tally {
    let mut tally = Tally::default();
    for command in 0..8 {
        for list in 0..profile.lists {
            let seed = 10_000 * profile.seed + 1_000 * command + list;
            run_list(profile, command, &mut Generator::new(seed), &mut tally);
        }
    }
    assert_eq!(tally.calls, 8 * profile.lists * profile.calls);
    tally
}

fn run_list(profile: &Profile, command: u64, generator: &mut Generator, tally: &mut Tally) {
    let mut both = Both::fresh(command);
    let mut window = generator.bytes(profile.window_length);
    for call in 0..profile.calls {
        let (address, length) = (profile.span)(generator, profile.window_length as u64);
        lend(&mut both, &mut window, length, generator);
        let kind = generator.below(profile.ends);
        match (call, kind) {
            (0, _) if !generator.one_in(4) => both.begin(tally),
            (_, 0) => both.end(tally),
            (_, 1) => both.begin(tally),
            _ if generator.one_in(5) => {
                let data = generator.bytes(length.min(9_000) as usize);
                both.own_write(address, &data, tally);
            }
            _ => both.fetch(address, length, tally),
        }
        both.compare(tally);
    }
}

#[test]
fn many_small_spans_up_to_the_last_run() {
    let tally = run(&Profile {
        seed: 1,
        lists: 10,
        calls: 250,
        window_length: 1_500,
        ends: 120,
        span: spans::small,
    });
    assert!(tally.refused("fetch", 24) > 500, "{tally:?}");
    assert!(tally.refused("own write", 24) > 100, "{tally:?}");
    assert_eq!(tally.most_runs, 64, "{tally:?}");
}

#[test]
fn large_spans_up_to_the_whole_map() {
    let tally = run(&Profile {
        seed: 2,
        lists: 10,
        calls: 60,
        window_length: 4_096,
        ends: 20,
        span: |generator, window| {
            let length = generator.between(500, 4_150);
            (
                generator.below((window + 30).saturating_sub(length).max(1)),
                length,
            )
        },
    });
    assert!(tally.refused("fetch", 4) > 30, "{tally:?}");
    assert!(tally.refused("fetch", 9) > 30, "{tally:?}");
    assert!(tally.mixed > 200, "{tally:?}");
}

#[test]
fn overlapping_spans_in_a_narrow_place() {
    let tally = run(&Profile {
        seed: 3,
        lists: 10,
        calls: 120,
        window_length: 700,
        ends: 60,
        span: spans::overlapping,
    });
    assert!(tally.mixed > 1_000, "{tally:?}");
    assert!(tally.mixed_writes > 250, "{tally:?}");
    assert!(tally.refused("fetch", 10) > 50, "{tally:?}");
}

#[test]
fn touching_spans_and_some_across_the_borders() {
    let tally = run(&Profile {
        seed: 4,
        lists: 10,
        calls: 80,
        window_length: 512,
        ends: 40,
        span: spans::touching,
    });
    assert!(tally.mixed > 100, "{tally:?}");
}

#[test]
fn single_bytes_in_a_row_and_those_between() {
    let tally = run(&Profile {
        seed: 5,
        lists: 10,
        calls: 250,
        window_length: 260,
        ends: 400,
        span: spans::every_other,
    });
    assert!(tally.refused("fetch", 24) > 300, "{tally:?}");
    assert_eq!(tally.most_runs, 64, "{tally:?}");
}

#[test]
fn spans_on_both_sides_of_the_last_address() {
    let tally = run(&Profile {
        seed: 6,
        lists: 10,
        calls: 60,
        window_length: 4_096,
        ends: 20,
        span: spans::at_the_end,
    });
    assert!(tally.refused("fetch", 9) > 500, "{tally:?}");
}

#[test]
fn many_begins_and_ends() {
    let tally = run(&Profile {
        seed: 7,
        lists: 20,
        calls: 100,
        window_length: 2_000,
        ends: 5,
        span: spans::medium,
    });
    for (name, number) in [("begin", 22), ("end", 21), ("fetch", 21)] {
        assert!(tally.refused(name, number) > 500, "{tally:?}");
    }
    assert!(tally.refused("own write", 21) > 200, "{tally:?}");
    for name in ["begin", "end", "fetch", "own write"] {
        assert!(tally.accepted(name) > 500, "{tally:?}");
    }
}

#[test]
fn spans_of_all_sizes_and_any_numbers() {
    let tally = run(&Profile {
        seed: 8,
        lists: 10,
        calls: 100,
        window_length: 4_096,
        ends: 30,
        span: |generator, window| match generator.below(20) {
            0 => (u64::MAX - generator.below(4_100), generator.below(4_100)),
            1 => (1 << generator.below(64), generator.below(3)),
            2 => (generator.below(3), 1 << generator.below(64)),
            _ => spans::any_size(generator, window),
        },
    });
    assert!(tally.refused("fetch", 9) > 500, "{tally:?}");
    assert!(tally.refused("fetch", 4) > 50, "{tally:?}");
    assert!(tally.accepted("fetch") > 1_000, "{tally:?}");
    assert!(tally.refused("own write", 9) > 100, "{tally:?}");
    assert!(tally.refused("own write", 4) > 10, "{tally:?}");
}
