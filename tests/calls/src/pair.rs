//! The library and the reference side by side: each line is carried out on
//! both, and after a call all that each has is compared.

use std::fmt::Display;

use boundary::{ByteMap, WORDS};
use reference::book::Book;
use reference::byte_map;

use crate::answer::Answer;
use crate::buffers::{Buffer, Buffers, Lend, Name, Place, NAMES};
use crate::call::{Call, Setting};
use crate::expected::Expected;
use crate::file::Item;
use crate::library::Library;
use crate::line::Line;
use crate::maps;
use crate::tally::Tally;
use crate::words::{book_of, words_of, PER_COMMAND};

/// Both sides, which agree before each line.
pub struct Pair {
    library: Library,
    expected: Expected,
    kept: Vec<(Library, Expected)>,
    part: String,
}

impl Pair {
    /// The fresh state, the fresh map, and the usual bytes and lengths of all
    /// buffers.
    pub fn new(part: &str) -> Pair {
        let buffers = Buffers::usual();
        Pair {
            library: Library {
                words: [0; WORDS],
                map: ByteMap::FRESH,
                buffers: buffers.clone(),
            },
            expected: Expected {
                book: Book::fresh(),
                map: byte_map::ByteMap::FRESH,
                buffers,
            },
            kept: vec![],
            part: part.to_string(),
        }
    }

    /// Carries out a line, and counts it if it is a call. The answer is a
    /// complaint if the two sides differ then, or answer what they must not.
    pub fn carry_out(&mut self, item: &Item, tally: &mut Tally) -> Option<String> {
        match &item.line {
            Line::Part(title) => *self = Pair::new(title),
            Line::Set(setting) => self.set(setting),
            Line::Keep => self
                .kept
                .push((self.library.clone(), self.expected.clone())),
            Line::PutBack => {
                let kept = self.kept.pop();
                (self.library, self.expected) = kept.expect("something was kept");
            }
            Line::Call(call, wanted) => return self.call(item, call, wanted, tally),
        }
        None
    }

    /// Sets the same on both sides.
    fn set(&mut self, setting: &Setting) {
        match setting {
            Setting::Lend { buffer, length } => {
                for side in self.both(*buffer) {
                    side.lend(*length);
                }
            }
            Setting::Fill { buffer, seed } => {
                for side in self.both(*buffer) {
                    side.fill(*seed);
                }
            }
            Setting::Prps { address, values } => {
                self.library.buffers.put_entries(*address, values);
                self.expected.buffers.put_entries(*address, values);
            }
            Setting::Words {
                command,
                place,
                values,
            } => {
                let from = command * PER_COMMAND + place;
                self.library.words[from..from + values.len()].copy_from_slice(values);
                self.expected.book = book_of(&self.library.words);
            }
            of_the_map => {
                maps::set(&mut self.library.map, of_the_map);
                self.expected.map = maps::expected_of(&self.library.map);
            }
        }
    }

    fn both(&mut self, name: Name) -> [&mut dyn Lend; 2] {
        let (library, expected) = (&mut self.library, &mut self.expected);
        [
            library.buffers.get_mut(name),
            expected.buffers.get_mut(name),
        ]
    }

    /// Makes a call on both sides.
    fn call(
        &mut self,
        item: &Item,
        call: &Call,
        wanted: &[u64],
        tally: &mut Tally,
    ) -> Option<String> {
        let data = call.data(item.seed);
        let given = data.clone();
        let found = self.library.make(call, &given);
        let right = self.expected.make(call, &data);
        tally.count(call, &right);
        let difference = self.first_difference(&data, &given);
        let unwanted = (!right.numbers.starts_with(wanted)).then(|| {
            let numbers = wanted.to_vec();
            format!("the answer must start with {}", Answer { numbers })
        });
        if found == right && difference.is_none() && unwanted.is_none() {
            return None;
        }
        self.agree_again();
        let answers = format!("the library answers {found}, the reference {right}");
        let told = [Some(answers), unwanted, difference];
        Some(self.complaint(item, told.into_iter().flatten()))
    }

    /// The first place of the first buffer in which the sides differ.
    fn first_difference(&self, right: &[u8], found: &[u8]) -> Option<String> {
        let words = words_of(&self.expected.book);
        let state = difference("the state", &words, &self.library.words);
        let buffers = NAMES.into_iter();
        let buffers = buffers.filter_map(|name| self.buffer_difference(name));
        let given = difference("the bytes given", right, found);
        let state = state.into_iter().chain(self.map_difference());
        state.chain(buffers).chain(given).next()
    }

    /// The first place of a buffer in which the sides differ.
    fn buffer_difference(&self, name: Name) -> Option<String> {
        let (right, found) = (&self.expected.buffers, &self.library.buffers);
        match name {
            Name::Store => between(name, &right.store, &found.store),
            Name::Window => between(name, &right.window, &found.window),
            Name::Destination => between(name, &right.destination, &found.destination),
            Name::Output => between(name, &right.output, &found.output),
            Name::Scratch => between(name, &right.scratch, &found.scratch),
            Name::Addresses => between(name, &right.addresses, &found.addresses),
            Name::Lengths => between(name, &right.lengths, &found.lengths),
        }
    }

    /// The first place of the byte map in which the sides differ.
    fn map_difference(&self) -> Option<String> {
        let (right, found) = (&self.expected.map, &self.library.map);
        difference("the map's open", &[right.open], &[found.open])
            .or_else(|| difference("the map's words", &right.words, &found.words))
            .or_else(|| difference("the map's values", &right.values, &found.values))
    }

    /// Gives the library's side what the reference has.
    fn agree_again(&mut self) {
        self.library.words = words_of(&self.expected.book);
        self.library.map = maps::library_of(&self.expected.map);
        self.library.buffers = self.expected.buffers.clone();
    }

    /// The place of a line and the line, and what is told of it.
    fn complaint(&self, item: &Item, told: impl Iterator<Item = String>) -> String {
        let first = format!("differs: {}: {} ({})\n", item.place, item.line, self.part);
        told.fold(first, |text, line| text + &format!("  {line}\n"))
    }
}

/// The first place at which a buffer of the one side differs from the other's.
fn between<T: Place>(name: Name, right: &Buffer<T>, found: &Buffer<T>) -> Option<String> {
    difference(
        &format!("the {}", name.word()),
        &right.places,
        &found.places,
    )
}

/// The first place at which two slices of one length differ, in words.
fn difference<T: PartialEq + Display>(name: &str, right: &[T], found: &[T]) -> Option<String> {
    if right == found {
        return None;
    }
    let place = right.iter().zip(found).position(|(a, b)| a != b)?;
    let [found, right] = [&found[place], &right[place]];
    Some(format!(
        "{name} differs first at place {place}: {found} in the library, {right} in the reference"
    ))
}

#[cfg(test)]
mod tests {
    use super::*;
    use crate::file::read;
    use crate::random::list;
    use reference::walk::Transfer;

    /// A pair after these lines, on which nothing may differ.
    fn after(text: &str) -> Pair {
        let mut pair = Pair::new("a part");
        for item in read(text).unwrap() {
            let complaint = pair.carry_out(&item, &mut Tally::default());
            assert_eq!(complaint, None);
        }
        pair
    }

    /// What is said of a line.
    fn complaint(pair: &mut Pair, line: &str) -> String {
        let items = read(line).unwrap();
        let complaint = pair.carry_out(&items[0], &mut Tally::default());
        complaint.unwrap_or_default()
    }

    #[test]
    fn another_answer_and_another_word_are_told() {
        let mut pair = after("begin 3\nfetch 3 16+4");
        pair.library.words[3 * PER_COMMAND + 1] = 17;
        let told = "differs: line 1: show 3 0 (a part)\n  \
                    the library answers 0 17 4, the reference 0 16 4\n  \
                    the state differs first at place 388: 17 in the library, 16 in the reference\n";
        assert_eq!(complaint(&mut pair, "show 3 0"), told);
        assert_eq!(complaint(&mut pair, "show 3 0"), "");
    }

    /// Changes one place of a buffer.
    fn spoil(buffers: &mut Buffers, name: Name, place: usize) {
        match name {
            Name::Store => buffers.store.places[place] ^= 1,
            Name::Window => buffers.window.places[place] ^= 1,
            Name::Destination => buffers.destination.places[place] ^= 1,
            Name::Output => buffers.output.places[place] ^= 1,
            Name::Scratch => buffers.scratch.places[place] ^= 1,
            Name::Addresses => buffers.addresses.places[place] ^= 1 << 63,
            Name::Lengths => buffers.lengths.places[place] ^= 1 << 31,
        }
    }

    #[test]
    fn one_changed_place_is_told_even_where_it_is_not_lent() {
        for name in NAMES {
            for place in [0, name.usual() - 1, name.usual(), name.size() - 1] {
                let mut pair = after("part a part");
                spoil(&mut pair.library.buffers, name, place);
                let told = complaint(&mut pair, "show 0 0");
                let first = format!("the {} differs first at place {place}: ", name.word());
                assert!(told.contains(&first), "{told}");
                assert_eq!(complaint(&mut pair, "show 0 0"), "");
            }
        }
    }

    #[test]
    fn one_changed_part_of_the_map_is_told() {
        for (part, place) in [("open", 0), ("words", 63), ("values", 4_095)] {
            let mut pair = after("map-begin = 0\nlend window 64\nmap-fetch 3+4 = 0 4 0");
            let map = &mut pair.library.map;
            match part {
                "open" => map.open ^= 1 << 63,
                "words" => map.words[place] ^= 1 << 63,
                _ => map.values[place] ^= 1 << 7,
            }
            let told = complaint(&mut pair, "show 0 0");
            let first = format!("the map's {part} differs first at place {place}: ");
            assert!(told.contains(&first), "{told}");
            assert_eq!(complaint(&mut pair, "map-fetch 3+4 = 0 0 4"), "");
        }
    }

    #[test]
    fn an_answer_that_the_line_does_not_have_is_told() {
        let mut pair = after("begin 3 = 0");
        let told = complaint(&mut pair, "fetch 3 16+4 = 0 3");
        assert!(
            told.ends_with("\n  the answer must start with 0 3\n"),
            "{told}"
        );
        assert_eq!(complaint(&mut pair, "fetch 3 16+4 = 0 0 4"), "");
    }

    /// The number of records and of held bytes of a command; none of one that
    /// there is not.
    fn records_and_bytes(book: &Book, command: u64) -> (u64, u64) {
        let Some(entry) = book.commands.get(command as usize) else {
            return (0, 0);
        };
        let lengths = entry.entries.iter().map(|record| record.length);
        (entry.count, lengths.sum())
    }

    #[test]
    fn random_lists_touch_records_where_there_are_as_many_as_there_may_be() {
        let (mut touched, mut refused) = (0, 0);
        for seed in 0..200 {
            let mut pair = Pair::new("a list");
            for item in list(seed) {
                let before = pair.expected.book.clone();
                let mut tally = Tally::default();
                pair.carry_out(&item, &mut tally);
                let (command, span) = match item.line {
                    Line::Call(Call::Fetch { command, span }, _) => (command, span),
                    Line::Call(Call::Own { command, span }, _) => (command, span),
                    _ => continue,
                };
                let (records, bytes) = records_and_bytes(&before, command);
                let (_, bytes_after) = records_and_bytes(&pair.expected.book, command);
                if records == 64 {
                    let all_new = span.length > 0 && bytes_after - bytes == span.length;
                    touched += u64::from(all_new);
                    refused += tally.count_of("fetch", 24) + tally.count_of("own", 24);
                }
            }
        }
        assert!(touched > 50 && refused > 100, "{touched}, {refused}");
    }

    #[test]
    fn random_lists_search_all_records_or_some_and_up_to_one_that_is_touched() {
        let (mut all, mut some, mut touched) = (0, 0, 0);
        for seed in 0..200 {
            let mut pair = Pair::new("a list");
            for item in list(seed) {
                let before = pair.expected.book.clone();
                let mut tally = Tally::default();
                pair.carry_out(&item, &mut tally);
                let Line::Call(Call::Fetch { command, span }, _) = item.line else {
                    continue;
                };
                if tally.count_of("fetch", 0) == 0 || span.length == 0 {
                    continue;
                }
                let records = before.commands[command as usize].records();
                let starts = records.iter().map(|record| u128::from(record.start));
                let above = starts.clone().filter(|start| *start > span.end()).count();
                all += u64::from(above == 0 && !records.is_empty());
                some += u64::from(above > 1);
                touched += u64::from(starts.clone().any(|start| start == span.end()));
            }
        }
        let counts = format!("{all}, {some}, {touched}");
        assert!(all > 1_000 && some > 2_500 && touched > 250, "{counts}");
    }

    /// How many lists a walk goes through if it is accepted.
    fn lists_of(transfer: Transfer) -> usize {
        let Transfer { prp1, prp2, length } = transfer;
        let behind = (prp1 % 4_096 + length).div_ceil(4_096) - 1;
        let fitting = (4_096 - prp2 % 4_096) / 8;
        match behind {
            0..=1 => 0,
            _ if behind <= fitting => 1,
            _ => 2,
        }
    }

    #[test]
    fn random_lists_walk_over_no_list_one_and_two_and_are_stopped_behind_one() {
        let mut accepted = [0; 3];
        let (mut replayed, mut kept) = (0, 0);
        for seed in 0..200 {
            let mut pair = Pair::new("a list");
            for item in list(seed) {
                let before = pair.expected.book.clone();
                let mut tally = Tally::default();
                pair.carry_out(&item, &mut tally);
                let Line::Call(Call::Walk { transfer, .. }, _) = item.line else {
                    continue;
                };
                let same = pair.expected.book == before;
                if tally.count_of("walk", 0) == 1 {
                    let lists = lists_of(transfer);
                    accepted[lists] += 1;
                    replayed += u64::from(lists > 0 && same);
                } else {
                    kept += u64::from(!same);
                }
            }
        }
        let counts = format!("{accepted:?}, {replayed}, {kept}");
        assert!(accepted.iter().all(|count| *count > 100), "{counts}");
        assert!(replayed > 50 && kept > 100, "{counts}");
    }

    #[test]
    fn a_tried_list_leaves_all_as_it_was() {
        let list = "list some\nbegin 1 = 0\nlend store 0\nhost 5+5\nend 0 = 8\nmap-begin = 0\ndone";
        let pair = after(&format!("{list}\ntry some\ntry some\nbegin 1 = 0"));
        assert_eq!(pair.library.map, ByteMap::FRESH);
        assert_eq!(pair.library.words[PER_COMMAND], 1);
        let usual = Buffers::usual();
        assert_eq!(pair.library.buffers.window.places, usual.window.places);
    }
}
