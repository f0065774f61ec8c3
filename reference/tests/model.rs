//! A model of the cache kept from the calls alone. For each command it has a
//! map from address to the value that the command last wrote there since its
//! begin, or else first fetched; which record an address belongs to is a label
//! on the address, and joining is a change of labels.

use std::collections::{BTreeMap, BTreeSet};

use reference::book::Book;
use reference::cache::Fetched;
use reference::walk::Transfer;

/// What the model knows of one held address.
#[derive(Clone, Copy)]
struct Cell {
    value: u8,
    label: u64,
}

/// What an accepted fetch must answer and deliver.
pub struct Delivery {
    pub counts: Fetched,
    pub bytes: Vec<u8>,
    /// How many records the span met: those that share a byte with it or
    /// touch it.
    pub met: usize,
}

/// The model: the held addresses of each open command, and what store and
/// window must contain.
pub struct Model {
    commands: [Option<BTreeMap<u64, Cell>>; 8],
    /// The addresses that were not held when they were fetched or written.
    new_since_begin: [u64; 8],
    labels: u64,
    pub store: Vec<u8>,
    pub window: Vec<u8>,
}

impl Model {
    /// All commands closed, with store and window as they are.
    pub fn fresh(store: &[u8], window: &[u8]) -> Model {
        Model {
            commands: [const { None }; 8],
            new_since_begin: [0; 8],
            labels: 0,
            store: store.to_vec(),
            window: window.to_vec(),
        }
    }

    /// A model of a book that holds together and of the bytes in its store.
    pub fn of_book(book: &Book, store: &[u8], window: &[u8]) -> Model {
        let mut model = Model::fresh(store, window);
        for (number, command) in book.commands.iter().enumerate() {
            if !command.open {
                continue;
            }
            let mut held = BTreeMap::new();
            for record in &command.entries[..command.count as usize] {
                model.labels += 1;
                for address in record.start..record.start + record.length {
                    let value = store[4_096 * number + held.len()];
                    let label = model.labels;
                    held.insert(address, Cell { value, label });
                }
            }
            model.new_since_begin[number] = held.len() as u64;
            model.commands[number] = Some(held);
        }
        model
    }

    pub fn begin(&mut self, command: u64) -> Result<(), u8> {
        let place = known(command)?;
        if self.commands[place].is_some() {
            return Err(22);
        }
        self.commands[place] = Some(BTreeMap::new());
        self.new_since_begin[place] = 0;
        self.zero_part(place);
        Ok(())
    }

    /// Answers the number of records, and as the number of bytes the sum over
    /// all fetches and own writes since the begin of the addresses not held.
    pub fn end(&mut self, command: u64) -> Result<(u64, u64), u8> {
        let place = known(command)?;
        if self.commands[place].is_none() {
            return Err(21);
        }
        let records = self.records(command).len() as u64;
        self.commands[place] = None;
        self.zero_part(place);
        Ok((records, self.new_since_begin[place]))
    }

    pub fn fetch(&mut self, command: u64, address: u64, length: u64) -> Result<Delivery, u8> {
        if length > 4_096 {
            return Err(4);
        }
        let place = known(command)?;
        self.inside_window(address, length)?;
        let present = self.window[address as usize..][..length as usize].to_vec();
        let held = self.commands[place].as_ref();
        let looked = held.map_or(0, |held| looked_labels(held, address, length));
        let (fresh, met) = self.hold(place, address, &present, |held, _| held)?;
        let cells = self.commands[place].iter().flatten();
        let of_span = cells.filter(|(at, _)| (address..address + length).contains(at));
        Ok(Delivery {
            counts: Fetched {
                fresh,
                replayed: length - fresh,
                looked,
            },
            bytes: of_span.map(|(_, cell)| cell.value).collect(),
            met,
        })
    }

    /// Takes a span into what a command holds; where it holds a value and is
    /// given another, `chosen` says which of the two it has then. Answers how
    /// many addresses were not held and how many records the span met.
    fn hold(
        &mut self,
        place: usize,
        address: u64,
        values: &[u8],
        chosen: fn(u8, u8) -> u8,
    ) -> Result<(u64, usize), u8> {
        let length = values.len() as u64;
        let held = self.commands[place].as_mut().ok_or(21)?;
        let span = address..address + length;
        let fresh = values.len() - held.range(span.clone()).count();
        if held.len() + fresh > 4_096 {
            return Err(23);
        }
        let labels: BTreeSet<u64> = held.values().map(|cell| cell.label).collect();
        let met = met_labels(held, address, length);
        let added = usize::from(length > 0);
        if labels.len() - met.len() + added > 64 {
            return Err(24);
        }

        self.labels += 1;
        let label = self.labels;
        for (at, &value) in span.zip(values) {
            let cell = held.entry(at).or_insert(Cell { value, label });
            cell.value = chosen(cell.value, value);
        }
        for cell in held.values_mut() {
            if met.contains(&cell.label) {
                cell.label = self.labels;
            }
        }
        for (number, cell) in held.values().enumerate() {
            self.store[4_096 * place + number] = cell.value;
        }
        self.new_since_begin[place] += fresh as u64;
        Ok((fresh as u64, met.len()))
    }

    pub fn host_write(&mut self, address: u64, data: &[u8]) -> Result<u64, u8> {
        if data.len() > 4_096 {
            return Err(4);
        }
        self.inside_window(address, data.len() as u64)?;
        for (place, byte) in data.iter().enumerate() {
            self.window[address as usize + place] = *byte;
        }
        Ok(data.len() as u64)
    }

    /// Answers how many bytes were written and how many of their addresses were
    /// not held.
    pub fn own_write(&mut self, command: u64, address: u64, data: &[u8]) -> Result<(u64, u64), u8> {
        if data.len() > 4_096 {
            return Err(4);
        }
        let place = known(command)?;
        self.inside_window(address, data.len() as u64)?;
        let (new, _) = self.hold(place, address, data, |_, written| written)?;
        Ok((self.host_write(address, data)?, new))
    }

    pub fn show(&self, command: u64, index: u64) -> Result<(u64, u64), u8> {
        let place = known(command)?;
        if self.commands[place].is_none() {
            return Err(21);
        }
        let records = self.records(command);
        records.get(index as usize).copied().ok_or(25)
    }

    /// Answers address and length of each span, and how many records were looked
    /// at. What was fetched of lists stays, also if the walk is refused.
    pub fn walk(&mut self, command: u64, transfer: Transfer) -> Result<(Vec<(u64, u64)>, u64), u8> {
        let Transfer { prp1, prp2, length } = transfer;
        if length == 0 || length > 65_536 {
            return Err(31);
        }
        if self.commands[known(command)?].is_none() {
            return Err(21);
        }
        let start = multiple(prp1, 4)? % 4_096;
        let end = start + length;
        let count = end.div_ceil(4_096);
        let (mut addresses, looked) = match count {
            1 => (vec![], 0),
            2 => (vec![multiple(prp2, 4_096)?], 0),
            _ => self.listed(command, multiple(prp2, 8)?, count - 1)?,
        };
        addresses.insert(0, prp1);
        let cut = |border: u64| border.clamp(start, end);
        let lengths = (0..count).map(|page| cut(4_096 * (page + 1)) - cut(4_096 * page));
        Ok((addresses.into_iter().zip(lengths).collect(), looked))
    }

    /// So many pages from an entry of a list on, and how many records were looked
    /// at for them.
    fn listed(&mut self, command: u64, list: u64, count: u64) -> Result<(Vec<u64>, u64), u8> {
        let fitting = 512 - list / 8 % 512;
        let delivery = self.fetch(command, list, 8 * count.min(fitting))?;
        let mut looked = delivery.counts.looked;
        let mut entries = vec![];
        for entry in delivery.bytes.chunks(8) {
            let entry = u64::from_le_bytes(entry.try_into().expect("eight bytes"));
            entries.push(multiple(entry, 4_096)?);
        }
        if count > fitting {
            let onward = entries.remove(fitting as usize - 1);
            let (rest, more) = self.listed(command, onward, count - (fitting - 1))?;
            entries.extend(rest);
            looked += more;
        }
        Ok((entries, looked))
    }

    pub fn is_open(&self, command: u64) -> bool {
        self.commands[command as usize].is_some()
    }

    /// Start and length of each run of addresses with the same label.
    pub fn records(&self, command: u64) -> Vec<(u64, u64)> {
        let mut records: Vec<(u64, u64)> = vec![];
        let mut last = None;
        for (&address, cell) in self.commands[command as usize].iter().flatten() {
            match records.last_mut() {
                Some(record) if last == Some(cell.label) => {
                    assert_eq!(record.0 + record.1, address, "a record with a gap");
                    record.1 += 1;
                }
                _ => records.push((address, 1)),
            }
            last = Some(cell.label);
        }
        records
    }

    fn inside_window(&self, address: u64, length: u64) -> Result<(), u8> {
        let room = self.window.len() as u64;
        if length <= room && address <= room - length {
            Ok(())
        } else {
            Err(9)
        }
    }

    fn zero_part(&mut self, place: usize) {
        self.store[4_096 * place..4_096 * place + 4_096].fill(0);
    }
}

/// The labels at the addresses of a span, at the one before it and at the one
/// behind it; none of an empty span.
fn met_labels(held: &BTreeMap<u64, Cell>, address: u64, length: u64) -> BTreeSet<u64> {
    if length == 0 {
        return BTreeSet::new();
    }
    let about = address.saturating_sub(1)..=address + length;
    held.range(about).map(|(_, cell)| cell.label).collect()
}

/// How many labels there are up to the address behind a span, and one more if
/// there is another further on; none of an empty span.
fn looked_labels(held: &BTreeMap<u64, Cell>, address: u64, length: u64) -> u64 {
    if length == 0 {
        return 0;
    }
    let behind = address + length;
    let label = |(_, cell): (&u64, &Cell)| cell.label;
    let passed: BTreeSet<u64> = held.range(..=behind).map(label).collect();
    let mut further = held.range(behind..).map(label);
    let another = further.any(|label| !passed.contains(&label));
    passed.len() as u64 + u64::from(another)
}

/// The number, if it is a multiple of the size.
fn multiple(number: u64, size: u64) -> Result<u64, u8> {
    if number % size == 0 {
        Ok(number)
    } else {
        Err(32)
    }
}

/// The place of a command, if there is one of that number.
fn known(command: u64) -> Result<usize, u8> {
    if command < 8 {
        Ok(command as usize)
    } else {
        Err(6)
    }
}
