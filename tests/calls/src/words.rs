//! The words of a state and the reference's book, one from the other.
//!
//! Of each command there are 129 words: 0 if it is closed and else one more
//! than the number of its records, and then the start and the length of each
//! of its 64 entries. Every state has a book. A book has words unless one of
//! its numbers is too large for them, or it has a closed command with a count;
//! no call makes such a one out of a book that has words.

use boundary::{Words, WORDS};
use reference::book::{Book, CommandBook, Span};
use reference::limits::RECORDS_PER_COMMAND;

/// How many words a command has.
pub const PER_COMMAND: usize = 1 + 2 * RECORDS_PER_COMMAND;

/// The book that the words say.
pub fn book_of(words: &Words) -> Book {
    let mut book = Book::fresh();
    let parts = words.chunks_exact(PER_COMMAND);
    for (command, part) in book.commands.iter_mut().zip(parts) {
        *command = command_of(part);
    }
    book
}

fn command_of(part: &[u16]) -> CommandBook {
    let mut command = CommandBook {
        open: part[0] > 0,
        count: u64::from(part[0].saturating_sub(1)),
        ..CommandBook::CLOSED
    };
    let pairs = part[1..].chunks_exact(2);
    for (entry, pair) in command.entries.iter_mut().zip(pairs) {
        *entry = Span {
            start: u64::from(pair[0]),
            length: u64::from(pair[1]),
        };
    }
    command
}

/// The words that say the book.
pub fn words_of(book: &Book) -> Words {
    let mut words = [0; WORDS];
    let parts = words.chunks_exact_mut(PER_COMMAND);
    for (part, command) in parts.zip(&book.commands) {
        assert!(command.open || command.count == 0, "closed with a count");
        part[0] = word(u64::from(command.open) + command.count);
        let pairs = part[1..].chunks_exact_mut(2);
        for (pair, entry) in pairs.zip(&command.entries) {
            pair.copy_from_slice(&[word(entry.start), word(entry.length)]);
        }
    }
    words
}

fn word(number: u64) -> u16 {
    u16::try_from(number).expect("a number that a word can have")
}

#[cfg(test)]
mod tests {
    use super::*;
    use sampling::generator::Generator;

    #[test]
    fn the_fresh_book_is_all_zero() {
        assert_eq!(words_of(&Book::fresh()), [0; WORDS]);
        assert_eq!(book_of(&[0; WORDS]), Book::fresh());
    }

    #[test]
    fn the_words_of_a_command() {
        let mut book = Book::fresh();
        let span = |start, length| Span { start, length };
        book.commands[2] = CommandBook::open_with(&[span(16, 4), span(65_535, 1)]);
        book.commands[7] = CommandBook::open_with(&[]);
        let words = words_of(&book);
        assert_eq!(words[258..264], [3, 16, 4, 65_535, 1, 0]);
        assert_eq!(words[903..905], [1, 0]);
        assert_eq!(words.iter().filter(|word| **word != 0).count(), 6);
    }

    #[test]
    fn any_words_come_back() {
        let mut numbers = Generator::new(1);
        for _ in 0..100 {
            let words: Words = std::array::from_fn(|_| numbers.below(65_536) as u16);
            assert_eq!(words_of(&book_of(&words)), words);
        }
    }
}
