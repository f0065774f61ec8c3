//! The book of records and its own rules ("The book and the store" in 01, the
//! agreed scope; docs/RULES.md has its rules).

use crate::limits::{COMMANDS, HELD_PER_COMMAND, RECORDS_PER_COMMAND, WINDOW_BYTES};

/// A run of addresses: `length` of them, from `start` on. A record is a span
/// whose bytes are held.
#[derive(Clone, Copy, Debug, PartialEq, Eq)]
pub struct Span {
    pub start: u64,
    pub length: u64,
}

impl Span {
    /// The content of a record entry that is not in use.
    pub const UNUSED: Span = Span {
        start: 0,
        length: 0,
    };

    /// The address right after the span, as a sum that cannot wrap.
    pub fn end(self) -> u128 {
        u128::from(self.start) + u128::from(self.length)
    }

    /// The addresses of the span, ascending.
    pub(crate) fn addresses(self) -> impl Iterator<Item = u64> {
        (0..self.length).map(move |place| self.start + place)
    }

    /// Whether the span ends below the other one's start with an address
    /// between them. Spans that share a byte or touch have none there.
    pub(crate) fn ends_short_of(self, other: Span) -> bool {
        self.end() < u128::from(other.start)
    }
}

/// What the book says of one command.
#[derive(Clone, Copy, Debug, PartialEq, Eq)]
pub struct CommandBook {
    pub open: bool,
    /// How many of the entries are in use, counted from the front.
    pub count: u64,
    pub entries: [Span; RECORDS_PER_COMMAND],
}

impl CommandBook {
    /// A command that is not open and so has no records.
    pub const CLOSED: CommandBook = CommandBook {
        open: false,
        count: 0,
        entries: [Span::UNUSED; RECORDS_PER_COMMAND],
    };

    /// An open command with the given records, of which there may be at most
    /// 64.
    pub fn open_with(records: &[Span]) -> CommandBook {
        let mut command = CommandBook {
            open: true,
            count: records.len() as u64,
            ..CommandBook::CLOSED
        };
        command.entries[..records.len()].copy_from_slice(records);
        command
    }

    /// The entries in use, and those that are not; nothing if the count is
    /// above the number of entries.
    fn used_and_unused(&self) -> Option<(&[Span], &[Span])> {
        let count = usize::try_from(self.count).ok()?;
        self.entries.split_at_checked(count)
    }

    /// The records of a command that holds together.
    pub fn records(&self) -> &[Span] {
        self.used_and_unused().map_or(&[], |(used, _)| used)
    }

    /// Whether the command keeps every rule that 01 sets for it, and that of
    /// F-1 of 02 (the agreed changes; docs/RULES.md has them too): no two
    /// records touch.
    fn holds_together(&self) -> bool {
        let Some((used, unused)) = self.used_and_unused() else {
            return false;
        };
        let total: u128 = used.iter().map(|record| u128::from(record.length)).sum();
        (self.open || used.is_empty())
            && unused.iter().all(|entry| *entry == Span::UNUSED)
            && used.iter().all(|record| record.length >= 1)
            && used
                .iter()
                .all(|record| record.end() <= WINDOW_BYTES as u128)
            && used.windows(2).all(|pair| pair[0].ends_short_of(pair[1]))
            && total <= HELD_PER_COMMAND as u128
    }
}

/// The state of the cache without the held bytes: what every command has.
#[derive(Clone, Debug, PartialEq, Eq)]
pub struct Book {
    pub commands: [CommandBook; COMMANDS],
}

impl Book {
    /// The book at the start: all commands are closed.
    pub fn fresh() -> Book {
        Book {
            commands: [CommandBook::CLOSED; COMMANDS],
        }
    }

    /// Whether every command of the book keeps the rules. A book that does
    /// not is refused (20) by each call that takes one.
    pub fn holds_together(&self) -> bool {
        self.commands.iter().all(CommandBook::holds_together)
    }

    /// The entry of a command, if there is a command of that number.
    pub(crate) fn command(&self, command: u64) -> Option<&CommandBook> {
        self.commands.get(usize::try_from(command).ok()?)
    }

    /// Whether there is a command of that number and it is open.
    pub(crate) fn is_open(&self, command: u64) -> bool {
        self.command(command).is_some_and(|entry| entry.open)
    }
}
