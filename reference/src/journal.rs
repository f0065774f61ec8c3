//! A journal of frames, carried out one after the other on lent buffers of any
//! bytes and lengths ("The log program" in 01, the agreed scope; docs/RULES.md
//! has its rules).

use crate::book::Book;
use crate::cache;
use crate::frames::{read_frame, Step};
use crate::refusal::Refusal;

/// What is lent to a run.
pub struct Lent<'a> {
    pub store: &'a mut [u8],
    pub window: &'a mut [u8],
    pub destination: &'a mut [u8],
}

/// A run in full: its whole log, how many frames were carried out and how many
/// a call refused, and whether an unreadable frame ended it.
#[derive(Clone, Debug, Default, PartialEq, Eq)]
pub struct Run {
    pub log: String,
    pub carried: usize,
    pub refused: usize,
    pub early: bool,
}

/// Carries out a journal from the fresh book. There is one line for each
/// frame; the first frame that cannot be read ends the run.
pub fn replay(journal: &[u8], mut lent: Lent) -> Run {
    let mut run = Run::default();
    let mut book = Book::fresh();
    let mut rest = journal;
    while !rest.is_empty() && !run.early {
        rest = run.frame(&mut book, &mut lent, rest);
    }
    run
}

impl Run {
    /// One frame and its line; the answer is what stands behind the frame.
    fn frame<'a>(&mut self, book: &mut Book, lent: &mut Lent, rest: &'a [u8]) -> &'a [u8] {
        match read_frame(rest) {
            Ok(frame) => {
                let answer = call(book, lent, frame.step);
                self.line(frame.step.letter(), &answer);
                match answer {
                    Ok(_) => self.carried += 1,
                    Err(_) => self.refused += 1,
                }
                &rest[frame.consumed..]
            }
            Err(refusal) => {
                self.line('?', &Err(refusal));
                self.early = true;
                rest
            }
        }
    }

    /// Adds the line of the next frame: its number, the letter, `ok` with the
    /// fields of the reply or `no` with the refusal number, all parted by one
    /// blank.
    fn line(&mut self, letter: char, answer: &Result<Vec<String>, Refusal>) {
        let number = self.carried + self.refused + 1;
        let mut fields = vec![number.to_string(), letter.to_string()];
        match answer {
            Ok(reply) => {
                fields.push("ok".to_string());
                fields.extend_from_slice(reply);
            }
            Err(refusal) => fields.extend(["no".to_string(), refusal.number().to_string()]),
        }
        self.log += &(fields.join(" ") + "\n");
    }
}

/// Makes the call that the step stands for and gives the fields that the line
/// has after `ok`.
fn call(book: &mut Book, lent: &mut Lent, step: Step) -> Result<Vec<String>, Refusal> {
    match step {
        Step::Begin { command } => {
            cache::begin(book, lent.store, command)?;
            Ok(vec![])
        }
        Step::Fetch {
            command,
            address,
            length,
        } => fetch(book, lent, command, address, length),
        Step::End { command } => {
            let had = cache::end(book, lent.store, command)?;
            Ok(vec![had.records.to_string(), had.bytes.to_string()])
        }
        Step::HostWrite { address, data } => {
            let written = cache::host_write(lent.window, address, data)?;
            Ok(vec![written.to_string()])
        }
        Step::OwnWrite {
            command,
            address,
            data,
        } => {
            let Lent { store, window, .. } = lent;
            let written = cache::own_write(book, store, window, command, address, data)?;
            Ok(vec![written.bytes.to_string(), written.fresh.to_string()])
        }
    }
}

/// A fetch into the lent destination: its counts but that of records, which F-6 of
/// 02 (the agreed changes; docs/RULES.md has them too) leaves out of the log, and
/// what it delivered.
fn fetch(
    book: &mut Book,
    lent: &mut Lent,
    command: u64,
    address: u64,
    length: u64,
) -> Result<Vec<String>, Refusal> {
    let counts = cache::fetch(
        book,
        lent.store,
        lent.window,
        command,
        address,
        length,
        lent.destination,
    )?;
    Ok(vec![
        counts.fresh.to_string(),
        counts.replayed.to_string(),
        hexadecimal(&lent.destination[..length as usize]),
    ])
}

/// Two lower-case digits for each byte, or `-` if there is no byte.
fn hexadecimal(bytes: &[u8]) -> String {
    if bytes.is_empty() {
        return "-".to_string();
    }
    bytes.iter().map(|byte| format!("{byte:02x}")).collect()
}
