//! What the lines of a log say, counted.

use std::collections::BTreeMap;
use std::fmt;

/// The letters of the calls that a frame can ask for.
pub const LETTERS: [char; 5] = ['B', 'F', 'E', 'H', 'W'];

/// The refusals that frames can bring about in a log program.
pub const REFUSALS: [u8; 10] = [1, 2, 3, 4, 5, 9, 21, 22, 23, 24];

/// Those of them that an own write can get.
pub const WRITE_REFUSALS: [u8; 4] = [9, 21, 23, 24];

/// Lines by what they say.
#[derive(Clone, Debug, Default, PartialEq, Eq)]
pub struct Tally {
    pub frames: u64,
    accepted: BTreeMap<char, u64>,
    refused: BTreeMap<(u8, char), u64>,
}

impl Tally {
    /// Counts the lines of a log. `input too long` is no frame's line and is
    /// not counted.
    pub fn of_log(log: &[u8]) -> Tally {
        let mut tally = Tally::default();
        for line in String::from_utf8_lossy(log).lines() {
            tally.count(line);
        }
        tally
    }

    fn count(&mut self, line: &str) {
        let mut fields = line.split(' ').skip(1);
        let first = fields.next().and_then(|field| field.chars().next());
        let letter = first.unwrap_or('?');
        let accepted = match fields.next() {
            Some("ok") => true,
            Some("no") => false,
            _ => return,
        };
        self.frames += 1;
        if accepted {
            *self.accepted.entry(letter).or_default() += 1;
        } else if let Some(number) = fields.next().and_then(|field| field.parse().ok()) {
            *self.refused.entry((number, letter)).or_default() += 1;
        }
    }

    /// Adds the counts of other lines.
    pub fn add(&mut self, other: &Tally) {
        self.frames += other.frames;
        for (letter, count) in &other.accepted {
            *self.accepted.entry(*letter).or_default() += count;
        }
        for (line, count) in &other.refused {
            *self.refused.entry(*line).or_default() += count;
        }
    }

    /// How many calls with this letter were accepted.
    pub fn accepted(&self, letter: char) -> u64 {
        self.accepted.get(&letter).copied().unwrap_or(0)
    }

    /// How many lines have this refusal number.
    pub fn refused(&self, number: u8) -> u64 {
        let lines = self.refused.range((number, '\0')..=(number, char::MAX));
        lines.map(|(_, count)| count).sum()
    }

    /// How many of them are those of an own write.
    fn refused_writes(&self, number: u8) -> u64 {
        self.refused.get(&(number, 'W')).copied().unwrap_or(0)
    }

    /// What frames can bring about and did not, in words.
    pub fn missing(&self) -> Vec<String> {
        self.missing_of(&REFUSALS, &WRITE_REFUSALS)
    }

    /// Which of the letters have no accepted call, which of these numbers no
    /// line, and which of the others no own write, in words.
    pub fn missing_of(&self, refusals: &[u8], of_writes: &[u8]) -> Vec<String> {
        let letters = LETTERS.iter().filter(|letter| self.accepted(**letter) == 0);
        let refusals = refusals.iter().filter(|number| self.refused(**number) == 0);
        let of_writes = of_writes
            .iter()
            .filter(|number| self.refused_writes(**number) == 0);
        letters
            .map(|letter| format!("an accepted {letter}"))
            .chain(refusals.map(|number| format!("refusal {number}")))
            .chain(of_writes.map(|number| format!("refusal {number} of an own write")))
            .collect()
    }
}

impl fmt::Display for Tally {
    fn fmt(&self, out: &mut fmt::Formatter<'_>) -> fmt::Result {
        writeln!(out, "frames compared: {}", self.frames)?;
        writeln!(out, "accepted calls by letter:")?;
        for (letter, count) in &self.accepted {
            writeln!(out, "  {letter}: {count}")?;
        }
        writeln!(out, "refused lines by number and letter:")?;
        for ((number, letter), count) in &self.refused {
            writeln!(out, "  {number} {letter}: {count}")?;
        }
        Ok(())
    }
}
