//! Random lists of calls, each of which depends on its seed alone. Most start
//! from the fresh state, some from other states that hold together, and some
//! from words that were damaged or are of any value. The window has page entries
//! for walks, which the host changes now and then.

use reference::book::Span;
use reference::limits::COMMANDS;
use sampling::generator::Generator;
use sampling::layout::head;
use sampling::spans;

use crate::buffers::Name;
use crate::call::{Bytes, Call, Setting};
use crate::file::Item;
use crate::line::Line;
use crate::states;
use crate::walks;

/// How many calls a list has.
pub const CALLS: u64 = 240;

/// So many calls are made before a list's state is set anew.
const CALLS_ON_A_STATE: u64 = 10;

/// Most walks are lent a window of at least so many bytes, so that there are some
/// pages to walk over.
const WALKED: u64 = 20_000;

/// Numbers that no call is used to: behind what 3, 8, 16, 32 and 64 bits hold.
pub const ODD: [u64; 8] = [
    8,
    9,
    256,
    65_536,
    1 << 32,
    (1 << 32) + 1,
    u64::MAX - 4_095,
    u64::MAX,
];

/// How a list chooses its spans, and among how many addresses.
type Spans = (fn(&mut Generator, u64) -> (u64, u64), u64);

const SPANS: [Spans; 9] = [
    (spans::small, 1_000),
    (spans::large, 9_000),
    (spans::overlapping, 700),
    (spans::touching, 512),
    (spans::every_other, 260),
    (spans::nested, 4_300),
    (spans::at_the_end, 65_536),
    (spans::medium, 2_000),
    (spans::any_size, 16_384),
];

/// Where a list starts from.
#[derive(Clone, Copy)]
enum Start {
    Fresh,
    /// A state that holds together, set by its words.
    Sound,
    /// The same with a word or two changed, often so that two records touch.
    Damaged,
    /// Words of any value.
    AnyWords,
}

const STARTS: [Start; 8] = [
    Start::Fresh,
    Start::Fresh,
    Start::Fresh,
    Start::Fresh,
    Start::Sound,
    Start::Sound,
    Start::Damaged,
    Start::AnyWords,
];

/// The list of a seed.
pub fn list(seed: u64) -> Vec<Item> {
    let mut draft = Draft::new(seed);
    let start = STARTS[(seed / SPANS.len() as u64 % STARTS.len() as u64) as usize];
    for buffer in [Name::Store, Name::Window] {
        draft.set(Setting::Fill { buffer, seed });
    }
    draft.lend(Name::Window, draft.addresses as usize);
    for border in walks::borders(draft.walked) {
        draft.entries(border);
    }
    for call in 0..CALLS {
        match start {
            Start::Fresh if call < draft.commands => draft.begin(call),
            _ => {
                if call % CALLS_ON_A_STATE == 0 {
                    draft.start(start);
                }
                draft.call();
            }
        }
    }
    draft.items
}

/// A line of a list by its number, with a seed of its own.
pub fn item(name: &str, seed: u64, number: u64, line: Line) -> Item {
    Item {
        place: format!("line {number} of {name} {seed}"),
        seed: seed.wrapping_add(number << 32),
        line,
    }
}

/// A list that is being put together.
struct Draft {
    seed: u64,
    numbers: Generator,
    span: fn(&mut Generator, u64) -> (u64, u64),
    /// How many addresses spans are chosen from.
    addresses: u64,
    /// How many addresses walks find their lists among.
    walked: u64,
    /// How many commands take part, from 0 on.
    commands: u64,
    /// The words of each command where the state was set; none if it was not.
    words: Vec<Vec<u16>>,
    items: Vec<Item>,
}

impl Draft {
    fn new(seed: u64) -> Draft {
        let (span, addresses) = SPANS[(seed % SPANS.len() as u64) as usize];
        let mut numbers = Generator::new(seed);
        let commands = [1, 2, 8][numbers.below(3) as usize];
        Draft {
            seed,
            numbers,
            span,
            addresses,
            walked: addresses.max(WALKED),
            commands,
            words: vec![],
            items: vec![],
        }
    }

    fn add(&mut self, line: Line) {
        let number = self.items.len() as u64 + 1;
        self.items.push(item("list", self.seed, number, line));
    }

    fn set(&mut self, setting: Setting) {
        self.add(Line::Set(setting));
    }

    fn lend(&mut self, buffer: Name, length: usize) {
        self.set(Setting::Lend { buffer, length });
    }

    /// Puts page entries around a border.
    fn entries(&mut self, border: u64) {
        let entries = walks::entries(&mut self.numbers, self.walked, border);
        self.set(entries);
    }

    fn begin(&mut self, command: u64) {
        self.add(Line::Call(Call::Begin { command }, vec![]));
    }

    /// The words that the next calls start from.
    fn start(&mut self, start: Start) {
        if let Start::Fresh = start {
            return;
        }
        let values = |_| match start {
            Start::AnyWords => states::any_words(&mut self.numbers),
            _ => states::sound_command(&mut self.numbers),
        };
        let commands: Vec<Vec<u16>> = (0..COMMANDS).map(values).collect();
        for (command, values) in commands.iter().enumerate() {
            self.set(Setting::Words {
                command,
                place: 0,
                values: values.clone(),
            });
        }
        self.words = commands;
        if let Start::Damaged = start {
            self.damage();
        }
    }

    /// Makes two records of a command touch, or changes a word or two.
    fn damage(&mut self) {
        if self.numbers.one_in(2) {
            if let Some(touch) = states::touch(&mut self.numbers, &self.words) {
                return self.set(touch);
            }
        }
        for _ in 0..self.numbers.between(1, 2) {
            let damage = states::damage(&mut self.numbers);
            self.set(damage);
        }
    }

    /// One call, now and then with an odd length of something lent.
    fn call(&mut self) {
        let call = self.choose();
        let odd = match (&call, self.numbers.below(25)) {
            (_, 0) => Some(self.odd_lending()),
            (Call::Fetch { span, .. }, 1..=3) => Some(self.close_room(span.length)),
            (Call::Walk { .. }, 1..=3) => Some(self.close_desk()),
            (Call::Walk { .. }, 4..=20) => Some(self.walked_window()),
            _ => None,
        };
        self.add(Line::Call(call, vec![]));
        match odd {
            Some(Name::Window) => self.lend(Name::Window, self.addresses as usize),
            Some(name) => self.lend(name, name.usual()),
            None => {}
        }
    }

    /// Lends a destination that has just room for a fetch, or just not.
    fn close_room(&mut self, length: u64) -> Name {
        let room = length.saturating_add(self.numbers.below(3));
        self.lend(Name::Destination, room.clamp(1, 4_200) as usize - 1);
        Name::Destination
    }

    /// Lends all addresses that walks find their lists among.
    fn walked_window(&mut self) -> Name {
        self.lend(Name::Window, self.walked as usize);
        Name::Window
    }

    /// Lends a scratch or a list that a walk has just room in, or just not.
    fn close_desk(&mut self) -> Name {
        match self.numbers.below(3) {
            0 => self.one_of(Name::Scratch, [127, 129, 200]),
            1 => self.one_of(Name::Addresses, [0, 16, 18]),
            _ => self.one_of(Name::Lengths, [0, 16, 18]),
        }
    }

    /// Lends another length of a buffer, and answers of which.
    fn odd_lending(&mut self) -> Name {
        match self.numbers.below(4) {
            0 => self.one_of(Name::Store, [0, 32_767, 32_769]),
            1 => self.one_of(Name::Window, [0, 65_537, self.addresses as usize - 1]),
            2 => self.one_of(Name::Destination, [0, 3, 4_095]),
            _ => self.one_of(Name::Output, [0, 4, 8]),
        }
    }

    /// Lends one of these lengths of a buffer, and answers the buffer.
    fn one_of(&mut self, name: Name, lengths: [usize; 3]) -> Name {
        let length = lengths[self.numbers.below(3) as usize];
        self.lend(name, length);
        name
    }

    fn choose(&mut self) -> Call {
        match self.numbers.below(100) {
            0..=5 => Call::Begin {
                command: self.command(),
            },
            6..=8 => Call::End {
                command: self.command(),
            },
            9..=14 => Call::Host {
                span: shortened(self.span()),
            },
            15..=24 => {
                let command = self.command();
                let span = shortened(self.span_of(command));
                Call::Own { command, span }
            }
            25..=29 => Call::Show {
                command: self.command(),
                index: self.index(),
            },
            30..=32 => self.read(),
            33..=36 => self.write(),
            37..=50 => self.walk(),
            _ => {
                let command = self.command();
                let span = self.span_of(command);
                Call::Fetch { command, span }
            }
        }
    }

    /// A walk, one in three times after the host has put other page entries
    /// somewhere, and one in four times the last walk again.
    fn walk(&mut self) -> Call {
        if self.numbers.one_in(3) {
            let border = walks::border(&mut self.numbers, self.walked);
            self.entries(border);
        }
        let last = self.items.iter().rev().find_map(|item| match &item.line {
            Line::Call(call @ Call::Walk { .. }, _) => Some(call.clone()),
            _ => None,
        });
        match last.filter(|_| self.numbers.one_in(4)) {
            Some(again) => again,
            None => Call::Walk {
                command: self.command(),
                transfer: walks::transfer(&mut self.numbers, self.walked),
            },
        }
    }

    /// A span for a command; where the state was set, one in four times one that
    /// touches a record.
    fn span_of(&mut self, command: u64) -> Span {
        let words = self.words.get(command as usize);
        let beside = match words {
            Some(words) if self.numbers.one_in(4) => states::beside(&mut self.numbers, words),
            _ => None,
        };
        beside.unwrap_or_else(|| self.span())
    }

    fn odd(&mut self) -> u64 {
        ODD[self.numbers.below(ODD.len() as u64) as usize]
    }

    fn command(&mut self) -> u64 {
        match self.numbers.below(60) {
            0 => self.odd(),
            1..=3 => self.numbers.below(8),
            _ => self.numbers.below(self.commands),
        }
    }

    fn index(&mut self) -> u64 {
        match self.numbers.below(20) {
            0 => self.odd(),
            1..=9 => self.numbers.below(66),
            _ => self.numbers.below(4),
        }
    }

    fn span(&mut self) -> Span {
        let (mut start, mut length) = (self.span)(&mut self.numbers, self.addresses);
        if self.numbers.one_in(60) {
            start = self.odd();
        }
        if self.numbers.one_in(60) {
            length = self.odd();
        }
        Span { start, length }
    }

    /// A frame of any fields, and mostly as many bytes as belong to it.
    fn read(&mut self) -> Call {
        let [kind, command, address, length] = self.fields();
        let spare = u64::from(self.numbers.one_in(10)) * self.numbers.below(32);
        let mut given = head(kind, command, address, length, spare);
        if self.numbers.one_in(10) {
            given.truncate(self.numbers.below(5) as usize);
        }
        let made = match self.numbers.below(3) {
            0 => self.numbers.below(40),
            _ => length,
        };
        let made = made as usize;
        Call::Read(Bytes { given, made })
    }

    fn write(&mut self) -> Call {
        let [kind, command, start, length] = self.fields();
        let [kind, command, start] =
            [kind, command, start].map(|number| match self.numbers.below(20) {
                0 => self.odd(),
                _ => number,
            });
        let data = match (kind, self.numbers.below(8)) {
            (_, 0) => self.numbers.below(40),
            (3 | 4, _) => length,
            _ => 0,
        };
        Call::Write {
            kind,
            command,
            span: Span { start, length },
            data: data as usize,
        }
    }

    /// Kind, command, address and length of a frame, often as the kind wants
    /// them.
    fn fields(&mut self) -> [u64; 4] {
        let numbers = &mut self.numbers;
        let kind = match numbers.below(12) {
            0 => numbers.below(8),
            _ => numbers.below(5),
        };
        let command = numbers.below(8);
        let address = numbers.below(65_536);
        let length = match numbers.below(4) {
            0 => numbers.between(4_090, 4_100),
            1 => numbers.below(4_097),
            _ => numbers.below(20),
        };
        match (kind, numbers.one_in(6)) {
            (0 | 2, false) => [kind, command, 0, 0],
            (3, false) => [kind, 0, address, length],
            _ => [kind, command, address, length],
        }
    }
}

/// The span, with as many bytes as are made for it.
pub fn shortened(span: Span) -> Span {
    let length = span.length.min(4_200);
    Span { length, ..span }
}

#[cfg(test)]
mod tests {
    use super::*;
    use crate::lists;
    use crate::sums::carry_out;
    use crate::tally::Tally;

    #[test]
    fn a_list_has_its_calls_and_is_always_the_same() {
        lists::has_its_calls(list, CALLS);
    }

    #[test]
    fn the_lists_of_128_seeds_reach_every_status() {
        let mut tally = Tally::default();
        for seed in 0..128 {
            tally.add(&carry_out(&list(seed)).tally);
        }
        let missing = tally.missing();
        let other = missing.iter().filter(|words| !words.starts_with("map-"));
        assert_eq!(other.count(), 0, "{missing:?}");
    }

    #[test]
    fn the_lines_of_a_list_can_be_read() {
        lists::can_be_read(list, 64);
    }
}
