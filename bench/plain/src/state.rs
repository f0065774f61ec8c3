//! The state: which commands are open, and the records of each.

pub const COMMANDS: usize = 8;
pub const RECORDS: usize = 64;
/// The most distinct bytes of a command, and the size of its store part.
pub const HELD: usize = 4_096;
/// The most bytes of one fetch or write.
pub const TRANSFER: usize = 4_096;
pub const WINDOW: usize = 65_536;
pub const STORE: usize = 32_768;

/// How many words a command has, and a state.
const COMMAND_WORDS: usize = 1 + 2 * RECORDS;
pub const WORDS: usize = COMMANDS * COMMAND_WORDS;

/// A run of held addresses: its first address and its length.
pub type Record = [u16; 2];

/// An entry that is no record.
const UNUSED: Record = [0, 0];

pub fn start([start, _]: Record) -> usize {
    usize::from(start)
}

pub fn length([_, length]: Record) -> usize {
    usize::from(length)
}

/// The address behind a record.
pub fn end(record: Record) -> usize {
    start(record) + length(record)
}

/// One command; `mark` is 0 if it is closed, and else one more than the number
/// of its records, which stand in the first entries.
#[derive(Clone, Copy)]
pub struct Command {
    mark: u16,
    entries: [Record; RECORDS],
}

impl Command {
    pub const CLOSED: Command = Command {
        mark: 0,
        entries: [UNUSED; RECORDS],
    };

    pub const OPENED: Command = Command {
        mark: 1,
        entries: [UNUSED; RECORDS],
    };

    pub fn is_open(&self) -> bool {
        self.mark != 0
    }

    fn count(&self) -> usize {
        usize::from(self.mark.saturating_sub(1))
    }

    /// The records of a command that holds together.
    pub fn records(&self) -> &[Record] {
        &self.entries[..self.count()]
    }

    /// Puts a record in the place of those from `first` up to `last`.
    pub fn splice(&mut self, first: usize, last: usize, record: Record) {
        let before = self.count();
        let count = before + 1 - (last - first);
        self.entries.copy_within(last..before, first + 1);
        self.entries[first] = record;
        if count < before {
            self.entries[count..before].fill(UNUSED);
        }
        self.mark = count as u16 + 1;
    }

    /// Whether the command keeps every rule.
    fn holds_together(&self) -> bool {
        if self.mark <= 1 {
            return are_unused(&self.entries);
        }
        match self.entries.split_at_checked(self.count()) {
            Some((used, unused)) => are_records(used) && are_unused(unused),
            None => false,
        }
    }
}

/// How many distinct bytes records hold.
pub fn held(records: &[Record]) -> usize {
    records
        .iter()
        .map(|[_, length]| u32::from(*length))
        .sum::<u32>() as usize
}

/// Whether all entries are zero. There is no branch at each, so that it is
/// vector code.
fn are_unused(entries: &[Record]) -> bool {
    let words = entries.as_flattened();
    words.iter().fold(0, |bits, word| bits | word) == 0
}

/// Whether each record is not empty, starts above the end of the one before it
/// and ends where addresses do, and all together are not too long. A wrong one
/// is rare, so no branch looks for it.
fn are_records(records: &[Record]) -> bool {
    let (mut low, mut total, mut wrong) = (-1, 0, false);
    for [start, length] in records {
        let (start, length) = (i32::from(*start), i32::from(*length));
        wrong |= start <= low;
        wrong |= length == 0;
        low = start + length;
        total += length;
    }
    !wrong && low <= WINDOW as i32 && total <= HELD as i32
}

/// All commands.
pub struct State {
    pub commands: [Command; COMMANDS],
}

impl State {
    pub const fn fresh() -> State {
        State {
            commands: [Command::CLOSED; COMMANDS],
        }
    }

    /// Whether every command keeps every rule.
    pub fn holds_together(&self) -> bool {
        self.commands.iter().all(Command::holds_together)
    }

    /// The state as the proved library keeps it.
    pub fn words(&self) -> [u16; WORDS] {
        let mut words = [0; WORDS];
        for (words, command) in words.chunks_exact_mut(COMMAND_WORDS).zip(&self.commands) {
            words[0] = command.mark;
            words[1..].copy_from_slice(command.entries.as_flattened());
        }
        words
    }

    /// The state of words, whether or not it holds together.
    pub fn of_words(words: &[u16; WORDS]) -> State {
        let mut state = State::fresh();
        for (words, command) in words.chunks_exact(COMMAND_WORDS).zip(&mut state.commands) {
            command.mark = words[0];
            let entries = command.entries.as_flattened_mut();
            entries.copy_from_slice(&words[1..]);
        }
        state
    }
}
