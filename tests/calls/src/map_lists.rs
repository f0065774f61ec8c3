//! Random lists of calls of the byte map, each of which depends on its seed
//! alone. Some start from the fresh map, some from other maps that hold together,
//! and some from maps that were damaged or have any bits and values.

use reference::book::Span;
use reference::limits::{MAP_ADDRESSES, MAP_WORDS};
use sampling::generator::Generator;
use sampling::spans;

use crate::buffers::Name;
use crate::call::{Call, Setting};
use crate::file::Item;
use crate::line::Line;
use crate::random::{item, shortened, ODD};

/// How many calls a list has.
pub const CALLS: u64 = 100;

/// So many calls are made before a list's map is set anew.
const CALLS_ON_A_MAP: u64 = 10;

/// How a list chooses its spans, and among how many addresses.
type Spans = (fn(&mut Generator, u64) -> (u64, u64), u64);

const SPANS: [Spans; 9] = [
    (spans::small, 1_000),
    (wide, 4_096),
    (spans::overlapping, 700),
    (spans::touching, 512),
    (spans::every_other, 260),
    (spans::nested, 4_096),
    (spans::at_the_end, 4_096),
    (spans::medium, 2_000),
    (spans::any_size, 4_096),
];

/// From 500 bytes to some above 4,096, a few of them past the end.
fn wide(numbers: &mut Generator, addresses: u64) -> (u64, u64) {
    let length = numbers.between(500, 4_100);
    (numbers.below(addresses + 20 - length), length)
}

/// Where a list starts from.
#[derive(Clone, Copy)]
enum Start {
    Fresh,
    /// A map that holds together, set by its parts.
    Sound,
    /// The same with a bit, a value or open changed.
    Damaged,
    /// Bits and values that are set one by one or not, or of any content.
    AnyParts,
}

const STARTS: [Start; 7] = [
    Start::Fresh,
    Start::Fresh,
    Start::Sound,
    Start::Sound,
    Start::Sound,
    Start::Damaged,
    Start::AnyParts,
];

/// The list of a seed.
pub fn list(seed: u64) -> Vec<Item> {
    let mut draft = Draft::new(seed);
    let start = STARTS[(seed / SPANS.len() as u64 % STARTS.len() as u64) as usize];
    let buffer = Name::Window;
    draft.set(Setting::Fill { buffer, seed });
    draft.lend(Name::Window, draft.addresses);
    for call in 0..CALLS {
        match (start, call) {
            (Start::Fresh, 0) => draft.add(Line::Call(Call::MapBegin, vec![])),
            _ => {
                if call % CALLS_ON_A_MAP == 0 {
                    draft.start(start);
                }
                draft.call();
            }
        }
    }
    draft.items
}

/// A list that is being put together.
struct Draft {
    seed: u64,
    numbers: Generator,
    span: fn(&mut Generator, u64) -> (u64, u64),
    /// How many addresses spans are chosen from.
    addresses: u64,
    items: Vec<Item>,
}

impl Draft {
    fn new(seed: u64) -> Draft {
        let (span, addresses) = SPANS[(seed % SPANS.len() as u64) as usize];
        Draft {
            seed,
            numbers: Generator::new(!seed),
            span,
            addresses,
            items: vec![],
        }
    }

    fn add(&mut self, line: Line) {
        let number = self.items.len() as u64 + 1;
        self.items.push(item("map list", self.seed, number, line));
    }

    fn set(&mut self, setting: Setting) {
        self.add(Line::Set(setting));
    }

    fn lend(&mut self, buffer: Name, length: u64) {
        let length = length as usize;
        self.set(Setting::Lend { buffer, length });
    }

    /// The map that the next calls start from.
    fn start(&mut self, start: Start) {
        match start {
            Start::Fresh => {}
            Start::Sound => self.sound(),
            Start::Damaged => {
                self.sound();
                self.damage();
            }
            Start::AnyParts => self.any_parts(),
        }
    }

    /// Sets all three parts of the map.
    fn set_map(&mut self, open: u64, words: Vec<u64>, values: Vec<u8>) {
        self.set(Setting::MapOpen { value: open });
        self.set(Setting::MapWords {
            place: 0,
            values: words,
        });
        self.set(Setting::MapValues { place: 0, values });
    }

    /// A map that holds together: closed, or open by any number, often with as
    /// many runs as there may be, at the low or at the high end, many with one
    /// address between.
    fn sound(&mut self) {
        if self.numbers.one_in(8) {
            return self.set_map(0, vec![0; MAP_WORDS], vec![0; MAP_ADDRESSES]);
        }
        let open = match self.numbers.below(4) {
            0 => self.odd(),
            _ => 1,
        };
        let mut held = vec![false; MAP_ADDRESSES];
        let count = [self.numbers.below(65), 64][self.numbers.below(2) as usize];
        let longest = [1, 3, 30, 63][self.numbers.below(4) as usize];
        let mut next = self.numbers.below(5);
        for _ in 0..count {
            let length = self.numbers.between(1, longest);
            let start = next + self.numbers.below(64 - length);
            held[start.min(4_095) as usize..(start + length).min(4_096) as usize].fill(true);
            next = start + length + 1;
        }
        if self.numbers.one_in(3) {
            held.reverse();
        }
        self.set_held(open, &held);
    }

    /// Sets a map with these addresses held, and any values there.
    fn set_held(&mut self, open: u64, held: &[bool]) {
        let mut words = vec![0; MAP_WORDS];
        let mut values = vec![0; MAP_ADDRESSES];
        for address in (0..MAP_ADDRESSES).filter(|address| held[*address]) {
            words[address / 64] |= 1 << (address % 64);
            values[address] = self.numbers.below(256) as u8;
        }
        self.set_map(open, words, values);
    }

    /// Sets one value, one word or open, not caring what was there.
    fn damage(&mut self) {
        let setting = match self.numbers.below(3) {
            0 => Setting::MapValues {
                place: self.place(MAP_ADDRESSES),
                values: vec![self.numbers.below(3) as u8],
            },
            1 => Setting::MapWords {
                place: self.place(MAP_WORDS),
                values: vec![self.any_word()],
            },
            _ => Setting::MapOpen { value: 0 },
        };
        self.set(setting);
    }

    /// A place of so many, often the first or the last.
    fn place(&mut self, count: usize) -> usize {
        match self.numbers.below(4) {
            0 => 0,
            1 => count - 1,
            _ => self.numbers.below(count as u64) as usize,
        }
    }

    /// One bit, or bits of any kind.
    fn any_word(&mut self) -> u64 {
        let bits = self.numbers.below(1 << 32) << 32 | self.numbers.below(1 << 32);
        match self.numbers.below(4) {
            0 => bits,
            1 => 0,
            _ => 1 << self.numbers.below(64),
        }
    }

    /// A map of any words and values, many of them zero.
    fn any_parts(&mut self) {
        let open = self.numbers.below(3);
        let most = [1, 2, 40][self.numbers.below(3) as usize];
        let mut word = |_| match self.numbers.one_in(most) {
            true => self.any_word(),
            false => 0,
        };
        let words = (0..MAP_WORDS).map(&mut word).collect();
        let most = [1, 4_000][self.numbers.below(2) as usize];
        let mut value = |_| u8::from(self.numbers.one_in(most));
        let values = (0..MAP_ADDRESSES).map(&mut value).collect();
        self.set_map(open, words, values);
    }

    /// One call, now and then with an odd length of something lent.
    fn call(&mut self) {
        let call = self.choose();
        let odd = match (&call, self.numbers.below(25)) {
            (_, 0) => Some(self.odd_window()),
            (Call::MapFetch { span }, 1..=2) => Some(self.close_room(span.length)),
            _ => None,
        };
        self.add(Line::Call(call, vec![]));
        match odd {
            Some(Name::Window) => self.lend(Name::Window, self.addresses),
            Some(name) => self.lend(name, name.usual() as u64),
            None => {}
        }
    }

    fn choose(&mut self) -> Call {
        match self.numbers.below(100) {
            0..=9 => Call::MapBegin,
            10..=12 => Call::MapEnd,
            13..=19 => Call::Host {
                span: shortened(self.span()),
            },
            20 => Call::MapFresh,
            21..=39 => Call::MapOwn {
                span: shortened(self.span()),
            },
            _ => Call::MapFetch { span: self.span() },
        }
    }

    /// Lends a destination that has just room for a fetch, or just not.
    fn close_room(&mut self, length: u64) -> Name {
        let room = length.saturating_add(self.numbers.below(3));
        self.lend(Name::Destination, room.clamp(1, 4_200) - 1);
        Name::Destination
    }

    /// Lends a window that is shorter, or longer than the map.
    fn odd_window(&mut self) -> Name {
        let lengths = [0, self.addresses - 1, 4_096, 4_097, 65_537];
        let length = lengths[self.numbers.below(5) as usize];
        self.lend(Name::Window, length);
        Name::Window
    }

    fn odd(&mut self) -> u64 {
        ODD[self.numbers.below(ODD.len() as u64) as usize]
    }

    fn span(&mut self) -> Span {
        let (mut start, mut length) = (self.span)(&mut self.numbers, self.addresses);
        if self.numbers.one_in(60) {
            start = self.odd();
        }
        if self.numbers.one_in(60) {
            length = self.odd();
        }
        Span { start, length }
    }
}

#[cfg(test)]
mod tests {
    use super::*;
    use crate::lists;
    use crate::sums::carry_out;
    use crate::tally::{Tally, CAN_APPLY};

    #[test]
    fn a_list_has_its_calls_and_is_always_the_same() {
        lists::has_its_calls(list, CALLS);
    }

    #[test]
    fn the_lists_of_63_seeds_reach_every_status_often() {
        let mut tally = Tally::default();
        for seed in 0..63 {
            tally.add(&carry_out(&list(seed)).tally);
        }
        let of_maps = CAN_APPLY.iter().filter(|(name, _)| name.starts_with("map"));
        for (name, numbers) in of_maps {
            for number in [&[0], *numbers].concat() {
                assert!(
                    tally.count_of(name, number) >= 10,
                    "{name} {number}\n{tally}"
                );
            }
        }
    }

    #[test]
    fn the_lines_of_a_list_can_be_read() {
        lists::can_be_read(list, 63);
    }
}
