//! If several numbers apply at once, the lowest is given. Every choice of
//! flaws that can stand together is built, in a slight and in a gross form,
//! and the answer must be the lowest number among them.

use std::collections::BTreeSet;

use reference::frames::{read_frame, write_frame};
use sampling::layout::{frame, head};

use crate::scene::{evenly, open_with, Scene};

/// All choices from the given numbers, the empty one included.
pub fn choices(numbers: &[u8]) -> Vec<Vec<u8>> {
    (0..1u32 << numbers.len())
        .map(|mask| {
            (0..numbers.len())
                .filter(|place| mask >> place & 1 == 1)
                .map(|place| numbers[place])
                .collect()
        })
        .collect()
}

/// The numbers that a test got, to be held against those a call can give.
pub struct Seen(BTreeSet<u8>);

impl Seen {
    pub fn new() -> Seen {
        Seen(BTreeSet::new())
    }

    /// Holds an answer against the flaws that were built into the input.
    fn check<Reply>(&mut self, answer: Result<Reply, u8>, flaws: &[u8]) {
        self.check_one(answer, flaws.iter().min().copied(), flaws);
    }

    /// Holds an answer against the one number, or none, that is due for the flaws.
    pub fn check_one<Reply>(&mut self, answer: Result<Reply, u8>, due: Option<u8>, flaws: &[u8]) {
        let got = answer.err();
        assert_eq!(got, due, "flaws {flaws:?}");
        self.0.extend(got);
    }

    /// Every number that the call can give was given.
    pub fn all_of(&self, numbers: &[u8]) {
        assert_eq!(self.0, numbers.iter().copied().collect());
    }
}

/// Values that are refused: the number of no command, a length that no call
/// takes, lengths that no store and no window may have, and records that do
/// not hold together.
pub struct Flawed {
    pub command: u64,
    length: u64,
    store: usize,
    window: usize,
    records: [(u64, u64); 2],
}

/// Just past the limits.
pub const SLIGHT: Flawed = Flawed {
    command: 8,
    length: 4_097,
    store: 32_767,
    window: 65_537,
    records: [(40, 8), (48, 8)],
};

/// Far from the limits.
pub const GROSS: Flawed = Flawed {
    command: u64::MAX,
    length: 8_192,
    store: 0,
    window: 100_000,
    records: [(60_000, 60_000), (0, 0)],
};

/// Breaks the book in a command that the call is not about.
fn break_book(scene: &mut Scene, form: &Flawed) {
    scene.book.commands[6] = open_with(&form.records);
}

/// The address at which a span of that length ends with the window, or with
/// the flaw one past it, or so far that a sum of 64 bits would wrap.
fn address_for(flaws: &[u8], gross: bool, window: usize, length: u64) -> u64 {
    match (flaws.contains(&9), gross) {
        (false, _) => window as u64 - length,
        (true, false) => window as u64 - length + 1,
        (true, true) => u64::MAX - length + 1,
    }
}

/// A scene for a call of command 3 that takes in what it does not hold, with
/// the flaws of window, store and book; nothing if these cannot stand together.
pub fn holding_scene(flaws: &[u8], form: &Flawed) -> Option<Scene> {
    let has = |number| flaws.contains(&number);
    if has(21) && (has(23) || has(24)) {
        return None;
    }
    let mut scene = Scene::fresh(if has(7) { form.window } else { 65_536 });
    if !has(21) {
        let records = match (has(23), has(24)) {
            (false, false) => vec![],
            (true, false) => vec![(0, 4_096)],
            (false, true) => evenly(64, 2, 1),
            (true, true) => evenly(64, 128, 64),
        };
        scene.book.commands[3] = open_with(&records);
    }
    if has(8) {
        scene.store.resize(form.store, 0);
    }
    if has(20) {
        break_book(&mut scene, form);
    }
    Some(scene)
}

/// The command and the length of such a call.
fn command_and_length(flaws: &[u8], form: &Flawed) -> (u64, u64) {
    let command = if flaws.contains(&6) { form.command } else { 3 };
    let length = if flaws.contains(&4) { form.length } else { 10 };
    (command, length)
}

#[test]
fn begin_gives_the_lowest() {
    let numbers = [6, 8, 20, 22];
    let mut seen = Seen::new();
    for form in [SLIGHT, GROSS] {
        for flaws in choices(&numbers) {
            let has = |number| flaws.contains(&number);
            let mut scene = Scene::fresh(64);
            if has(22) {
                scene.begin(3).unwrap();
            }
            if has(8) {
                scene.store.resize(form.store, 0);
            }
            if has(20) {
                break_book(&mut scene, &form);
            }
            let command = if has(6) { form.command } else { 3 };
            seen.check(scene.begin(command), &flaws);
        }
    }
    seen.all_of(&numbers);
}

#[test]
fn end_gives_the_lowest() {
    let numbers = [6, 8, 20, 21];
    let mut seen = Seen::new();
    for form in [SLIGHT, GROSS] {
        for flaws in choices(&numbers) {
            let has = |number| flaws.contains(&number);
            let mut scene = Scene::fresh(64);
            if !has(21) {
                scene.begin(3).unwrap();
            }
            if has(8) {
                scene.store.resize(form.store, 0);
            }
            if has(20) {
                break_book(&mut scene, &form);
            }
            let command = if has(6) { form.command } else { 3 };
            seen.check(scene.end(command), &flaws);
        }
    }
    seen.all_of(&numbers);
}

#[test]
fn fetch_gives_the_lowest() {
    let numbers = [4, 6, 7, 8, 9, 10, 20, 21, 23, 24];
    let mut seen = Seen::new();
    for (form, gross) in [(SLIGHT, false), (GROSS, true)] {
        for flaws in choices(&numbers) {
            let Some(mut scene) = holding_scene(&flaws, &form) else {
                continue;
            };
            let (command, length) = command_and_length(&flaws, &form);
            let missing = if gross { length as usize } else { 1 };
            let room = length as usize - if flaws.contains(&10) { missing } else { 0 };
            scene.destination.resize(room, 0x77);
            let address = address_for(&flaws, gross, scene.window.len(), length);
            seen.check(scene.fetch(command, address, length), &flaws);
        }
    }
    seen.all_of(&numbers);
}

#[test]
fn host_write_gives_the_lowest() {
    let numbers = [4, 7, 9];
    let mut seen = Seen::new();
    for (form, gross) in [(SLIGHT, false), (GROSS, true)] {
        for flaws in choices(&numbers) {
            let has = |number| flaws.contains(&number);
            let mut scene = Scene::fresh(if has(7) { form.window } else { 65_536 });
            let length = if has(4) { form.length } else { 10 };
            let address = address_for(&flaws, gross, scene.window.len(), length);
            let data = vec![0x77; length as usize];
            seen.check(scene.host_write(address, &data), &flaws);
        }
    }
    seen.all_of(&numbers);
}

#[test]
fn own_write_gives_the_lowest() {
    let numbers = [4, 6, 7, 8, 9, 20, 21, 23, 24];
    let mut seen = Seen::new();
    for (form, gross) in [(SLIGHT, false), (GROSS, true)] {
        for flaws in choices(&numbers) {
            let Some(mut scene) = holding_scene(&flaws, &form) else {
                continue;
            };
            let (command, length) = command_and_length(&flaws, &form);
            let address = address_for(&flaws, gross, scene.window.len(), length);
            let data = vec![0x77; length as usize];
            seen.check(scene.own_write(command, address, &data), &flaws);
        }
    }
    seen.all_of(&numbers);
}

#[test]
fn show_gives_the_lowest() {
    let numbers = [6, 20, 21, 25];
    let mut seen = Seen::new();
    for (form, gross) in [(SLIGHT, false), (GROSS, true)] {
        for flaws in choices(&numbers) {
            let has = |number| flaws.contains(&number);
            if has(21) && !has(25) {
                continue;
            }
            let mut scene = Scene::fresh(64);
            let count = if has(21) { 0 } else { 2 };
            if !has(21) {
                scene.book.commands[3] = open_with(&[(5, 2), (9, 1)]);
            }
            if has(20) {
                break_book(&mut scene, &form);
            }
            let command = if has(6) { form.command } else { 3 };
            let index = match (has(25), gross) {
                (false, _) => count - 1,
                (true, false) => count,
                (true, true) => u64::MAX,
            };
            seen.check(scene.show(command, index), &flaws);
        }
    }
    seen.all_of(&numbers);
}

#[test]
fn reader_gives_the_lowest() {
    let numbers = [1, 2, 3, 4, 5];
    let mut seen = Seen::new();
    for flaws in choices(&numbers) {
        let has = |number| flaws.contains(&number);
        if has(1) && flaws.len() > 1 || has(2) && has(5) {
            continue;
        }
        let kinds = match (has(2), has(5)) {
            (true, _) => vec![5, 6, 7],
            (false, true) => vec![3, 4],
            (false, false) => vec![1, 3, 4],
        };
        for kind in kinds {
            for spare in [1, 16, 31] {
                let spare = if has(3) { spare } else { 0 };
                let length = if has(4) { 4_097 } else { 10 };
                let mut bytes = head(kind, 0, 40, length, spare);
                if kind != 1 {
                    let missing = u64::from(has(5));
                    bytes.resize(5 + (length - missing) as usize, 0x77);
                }
                if has(1) {
                    bytes.truncate(4);
                }
                let answer = read_frame(&bytes).map_err(|refusal| refusal.number());
                seen.check(answer, &flaws);
            }
        }
    }
    seen.all_of(&numbers);
}

#[test]
fn reader_puts_a_forbidden_field_before_a_length_and_missing_data() {
    let number_of = |bytes: &[u8]| read_frame(bytes).unwrap_err().number();
    for length in [1, 4_096, 4_097, 8_191] {
        assert_eq!(number_of(&head(0, 0, 0, length, 0)), 3);
        assert_eq!(number_of(&head(2, 0, 0, length, 0)), 3);
        assert_eq!(number_of(&head(3, 1, 0, length, 0)), 3);
    }
}

#[test]
fn reader_says_only_1_of_a_short_frame() {
    for kind in 0..8 {
        let bytes = head(kind, 7, 65_535, 8_191, 31);
        for length in 0..5 {
            let refusal = read_frame(&bytes[..length]).unwrap_err();
            assert_eq!(refusal.number(), 1);
        }
    }
}

/// What is handed to the writer. How many data and how much output there are
/// is said as a difference from what the kind and the length ask for.
struct WriterInput {
    kind: u64,
    command: u64,
    address: u64,
    length: u64,
    extra_data: usize,
    missing_output: usize,
}

/// A flaw of the writer's input: what it sets, and the number it brings.
type WriterFlaw<'a> = (&'a dyn Fn(&mut WriterInput), u8);

/// Whether the kind has data, as the table of kinds says.
fn has_data(kind: u64) -> bool {
    kind == 3 || kind == 4
}

/// Holds the writer's answer against the lowest number of all choices from
/// the flaws; each flaw sets a field of its own.
fn check_writer(kind: u64, always: &[u8], possible: &[WriterFlaw], seen: &mut Seen) {
    let places: Vec<u8> = (0..possible.len() as u8).collect();
    for chosen in choices(&places) {
        let mut input = WriterInput {
            kind,
            command: 0,
            address: 0,
            length: 0,
            extra_data: 0,
            missing_output: 0,
        };
        let mut flaws = always.to_vec();
        for place in chosen {
            let (set, number) = possible[place as usize];
            set(&mut input);
            flaws.push(number);
        }
        let of_length = if has_data(kind) {
            input.length as usize
        } else {
            0
        };
        let data = vec![0x77; of_length + input.extra_data];
        let before = vec![0xa5; 5 + of_length - input.missing_output];
        let mut output = before.clone();
        let answer = write_frame(
            input.kind,
            input.command,
            input.address,
            input.length,
            &data,
            &mut output,
        );
        match answer {
            Ok(_) => assert_eq!(
                output,
                frame(kind, input.command, input.address, input.length, &data)
            ),
            Err(_) => assert_eq!(output, before),
        }
        seen.check(answer.map_err(|refusal| refusal.number()), &flaws);
    }
}

#[test]
fn writer_gives_the_lowest() {
    let mut seen = Seen::new();
    let extra_data: WriterFlaw = (&|input| input.extra_data = 1, 5);
    let missing_output: WriterFlaw = (&|input| input.missing_output = 1, 10);
    for (command, address, length) in [(8, 65_536, 4_097), (u64::MAX, u64::MAX, 8_192)] {
        let set_command = |input: &mut WriterInput| input.command = command;
        let set_address = |input: &mut WriterInput| input.address = address;
        let set_length = |input: &mut WriterInput| input.length = length;
        for kind in [0, 2] {
            let possible: [WriterFlaw; 5] = [
                (&set_address, 3),
                (&set_length, 3),
                extra_data,
                (&set_command, 6),
                missing_output,
            ];
            check_writer(kind, &[], &possible, &mut seen);
        }
        for kind in [1, 4] {
            let possible: [WriterFlaw; 5] = [
                (&set_length, 4),
                extra_data,
                (&set_command, 6),
                missing_output,
                (&set_address, 11),
            ];
            check_writer(kind, &[], &possible, &mut seen);
        }
        let possible: [WriterFlaw; 5] = [
            (&set_command, 3),
            (&set_length, 4),
            extra_data,
            missing_output,
            (&set_address, 11),
        ];
        check_writer(3, &[], &possible, &mut seen);
        for kind in [5, 6, 7, 8, 1 << 32, u64::MAX] {
            let possible: [WriterFlaw; 5] = [
                (&set_length, 4),
                extra_data,
                (&set_command, 6),
                missing_output,
                (&set_address, 11),
            ];
            check_writer(kind, &[2], &possible, &mut seen);
        }
    }
    seen.all_of(&[2, 3, 4, 5, 6, 10, 11]);
}

#[test]
fn writer_judges_a_length_that_cannot_be_summed() {
    for kind in [1, 3, 4] {
        for length in [u64::MAX - 5, u64::MAX - 4, u64::MAX] {
            let mut output = [0xa5; 4];
            let answer = write_frame(kind, 0, u64::MAX, length, &[1], &mut output);
            assert_eq!(answer.unwrap_err().number(), 4);
            assert_eq!(output, [0xa5; 4]);
        }
    }
}
