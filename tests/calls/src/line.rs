//! One line of the file: a call, or what sets the ground for the next calls.
//!
//! ```text
//! release                   fresh
//! begin C                   end C
//! fetch C A+N               show C I
//! host A+N                  own C A+N             N made bytes
//! walk C PRP1 PRP2 N                              a transfer of N bytes
//! read HEX.. [+N]           replay HEX.. [+N]     these bytes, then N made ones
//! write KIND C A+N DATA                           DATA made bytes
//! map-fresh  map-begin  map-fetch A+N  map-end    calls of the byte map
//! map-own A+N                                     one with N made bytes
//!
//! lend BUFFER N             lends the first N bytes of a buffer, or N places of a
//!                           walk's list
//! fill BUFFER SEED          gives a buffer the bytes of a seed
//! prp A VALUE..             page entries in the window, from an address on
//! prps A COUNT VALUE STEP   COUNT page entries, each STEP above the one before
//! command C FIRST A+N..     all words of a command: the first one, its entries
//!                           from the front, and zero
//! entry C K A+N             entry K of a command
//! entries C COUNT A+N STEP  its first COUNT entries, each starts STEP further on
//! words C PLACE VALUE..     words of a command, from a place on
//! map-open VALUE            what the byte map has for open
//! map-words PLACE VALUE..   words of the byte map, from a place on
//! map-values A VALUE..      values of the byte map, from an address on
//! map-runs COUNT A+N STEP   sets the bits of COUNT spans, each STEP further on,
//!                           and gives their addresses values
//! ```
//!
//! A call may end in `= NUMBER..`, the first numbers of its answer.

use std::fmt;
use std::slice::Iter;

use reference::book::Span;
use reference::limits::{COMMANDS, ENTRY_BYTES, MAP_ADDRESSES, MAP_WORDS, RECORDS_PER_COMMAND};
use reference::walk::Transfer;

use crate::buffers::{Name, NAMES};
use crate::call::{Bytes, Call, Setting, MOST_DATA};
use crate::maps;
use crate::words::PER_COMMAND;

/// What a line says.
#[derive(Clone, Debug, PartialEq, Eq)]
pub enum Line {
    /// The fresh state, and the usual bytes and lengths of all buffers.
    Part(String),
    Set(Setting),
    /// A call, and the first numbers that its answer must have.
    Call(Call, Vec<u64>),
    /// State and buffers are kept.
    Keep,
    /// State and buffers are again as they were kept.
    PutBack,
}

/// Reads a line that is a call or a setting.
pub fn parse(words: &[&str]) -> Result<Line, String> {
    let (before, wanted) = split_wanted(words)?;
    let (name, rest) = before.split_first().ok_or("there is no call")?;
    let mut rest = Rest(rest.iter());
    let call = call(name, &mut rest)?;
    let line = match (call, setting(name, &mut rest)?) {
        (Some(call), _) => Line::Call(call, wanted),
        (None, Some(_)) if !wanted.is_empty() => return Err("only a call has an answer".into()),
        (None, Some(setting)) => Line::Set(setting),
        (None, None) => return Err(format!("'{name}' is not known")),
    };
    match rest.0.next() {
        None => Ok(line),
        Some(word) => Err(format!("'{word}' is too much")),
    }
}

/// Parts the words from the numbers behind `=`.
pub fn split_wanted<'a>(words: &'a [&'a str]) -> Result<(&'a [&'a str], Vec<u64>), String> {
    let Some(place) = words.iter().position(|word| *word == "=") else {
        return Ok((words, vec![]));
    };
    let numbers = &words[place + 1..];
    if numbers.is_empty() {
        return Err("there is no number behind '='".to_string());
    }
    let numbers = numbers.iter().map(|word| parse_number(word));
    Ok((&words[..place], numbers.collect::<Result<_, _>>()?))
}

/// The call of that name, if there is one.
fn call(name: &str, rest: &mut Rest) -> Result<Option<Call>, String> {
    Ok(Some(match name {
        "release" => Call::Release,
        "fresh" => Call::Fresh,
        "begin" => Call::Begin {
            command: rest.number()?,
        },
        "fetch" => Call::Fetch {
            command: rest.number()?,
            span: rest.span()?,
        },
        "end" => Call::End {
            command: rest.number()?,
        },
        "host" => Call::Host {
            span: rest.span_of_data()?,
        },
        "own" => Call::Own {
            command: rest.number()?,
            span: rest.span_of_data()?,
        },
        "show" => Call::Show {
            command: rest.number()?,
            index: rest.number()?,
        },
        "walk" => Call::Walk {
            command: rest.number()?,
            transfer: Transfer {
                prp1: rest.number()?,
                prp2: rest.number()?,
                length: rest.number()?,
            },
        },
        "read" => Call::Read(rest.bytes()?),
        "write" => Call::Write {
            kind: rest.number()?,
            command: rest.number()?,
            span: rest.span()?,
            data: rest.up_to(MOST_DATA)?,
        },
        "replay" => Call::Replay(rest.bytes()?),
        _ => return map_call(name, rest),
    }))
}

/// The call of the byte map of that name, if there is one.
fn map_call(name: &str, rest: &mut Rest) -> Result<Option<Call>, String> {
    Ok(Some(match name {
        "map-fresh" => Call::MapFresh,
        "map-begin" => Call::MapBegin,
        "map-fetch" => Call::MapFetch { span: rest.span()? },
        "map-end" => Call::MapEnd,
        "map-own" => Call::MapOwn {
            span: rest.span_of_data()?,
        },
        _ => return Ok(None),
    }))
}

/// The setting of that name, if there is one.
fn setting(name: &str, rest: &mut Rest) -> Result<Option<Setting>, String> {
    let (command, place, values) = match name {
        "lend" => {
            let buffer = rest.buffer()?;
            let length = rest.up_to(buffer.size())?;
            return Ok(Some(Setting::Lend { buffer, length }));
        }
        "fill" => {
            let (buffer, seed) = (rest.buffer()?, rest.number()?);
            return Ok(Some(Setting::Fill { buffer, seed }));
        }
        "prp" => return rest.prps(Rest::listed).map(Some),
        "prps" => return rest.prps(Rest::stepped).map(Some),
        "command" => (rest.command()?, 0, rest.whole_command()?),
        "entry" => {
            let command = rest.command()?;
            let place = 1 + 2 * rest.up_to(RECORDS_PER_COMMAND - 1)?;
            (command, place, rest.entry()?.to_vec())
        }
        "entries" => (rest.command()?, 1, rest.entries()?),
        "words" => {
            let (command, place) = (rest.command()?, rest.up_to(PER_COMMAND - 1)?);
            (
                command,
                place,
                rest.values(PER_COMMAND - place, Rest::value)?,
            )
        }
        _ => return map_setting(name, rest),
    };
    Ok(Some(Setting::Words {
        command,
        place,
        values,
    }))
}

/// The setting of the byte map of that name, if there is one.
fn map_setting(name: &str, rest: &mut Rest) -> Result<Option<Setting>, String> {
    Ok(Some(match name {
        "map-open" => Setting::MapOpen {
            value: rest.number()?,
        },
        "map-words" => {
            let place = rest.up_to(MAP_WORDS - 1)?;
            let values = rest.values(MAP_WORDS - place, Rest::number)?;
            Setting::MapWords { place, values }
        }
        "map-values" => {
            let place = rest.up_to(MAP_ADDRESSES - 1)?;
            let values = rest.values(MAP_ADDRESSES - place, Rest::byte)?;
            Setting::MapValues { place, values }
        }
        "map-runs" => {
            let (count, span, step) = (rest.number()?, rest.span()?, rest.number()?);
            maps::end_of_runs(count, span.start, span.length, step)
                .ok_or("the map does not have all of these addresses")?;
            Setting::MapRuns { count, span, step }
        }
        _ => return Ok(None),
    }))
}

/// The words of a line that are not read yet.
struct Rest<'a>(Iter<'a, &'a str>);

impl<'a> Rest<'a> {
    fn word(&mut self) -> Result<&'a str, String> {
        let word = self.0.next().copied();
        word.ok_or_else(|| "a word is missing at the end".to_string())
    }

    fn number(&mut self) -> Result<u64, String> {
        parse_number(self.word()?)
    }

    /// A number that is not above the most.
    fn up_to(&mut self, most: usize) -> Result<usize, String> {
        let number = self.number()?;
        let fitting = usize::try_from(number).ok().filter(|found| *found <= most);
        fitting.ok_or_else(|| format!("{number} is above {most}"))
    }

    /// A command whose words are set.
    fn command(&mut self) -> Result<usize, String> {
        self.up_to(COMMANDS - 1)
    }

    fn value(&mut self) -> Result<u16, String> {
        self.up_to(u16::MAX.into()).map(|number| number as u16)
    }

    fn byte(&mut self) -> Result<u8, String> {
        self.up_to(u8::MAX.into()).map(|number| number as u8)
    }

    fn span(&mut self) -> Result<Span, String> {
        let word = self.word()?;
        let (start, length) = word
            .split_once('+')
            .ok_or_else(|| format!("'{word}' is no span"))?;
        Ok(Span {
            start: parse_number(start)?,
            length: parse_number(length)?,
        })
    }

    /// A span of which every byte is made.
    fn span_of_data(&mut self) -> Result<Span, String> {
        let span = self.span()?;
        if span.length > MOST_DATA as u64 {
            return Err(format!("{} is above {MOST_DATA}", span.length));
        }
        Ok(span)
    }

    fn buffer(&mut self) -> Result<Name, String> {
        let word = self.word()?;
        let name = NAMES.into_iter().find(|name| name.word() == word);
        name.ok_or_else(|| format!("'{word}' is no buffer"))
    }

    /// Page entries for the window, which has room for the values that are read.
    fn prps(
        &mut self,
        values: fn(&mut Self, usize) -> Result<Vec<u64>, String>,
    ) -> Result<Setting, String> {
        let size = Name::Window.size();
        let address = self.up_to(size)?;
        let values = values(self, (size - address) / ENTRY_BYTES)?;
        Ok(Setting::Prps { address, values })
    }

    /// Values one by one.
    fn listed(&mut self, room: usize) -> Result<Vec<u64>, String> {
        self.values(room, Rest::number)
    }

    /// So many values, each the same step above the one before.
    fn stepped(&mut self, room: usize) -> Result<Vec<u64>, String> {
        let count = self.up_to(room)? as u64;
        let (first, step) = (self.number()?, self.number()?);
        let value = |place: u64| first.checked_add(place.checked_mul(step)?);
        let values: Option<Vec<u64>> = (0..count).map(value).collect();
        values.ok_or_else(|| "the last of them is no number of 64 bits".to_string())
    }

    /// Two digits for each byte, and perhaps a number of bytes to make.
    fn bytes(&mut self) -> Result<Bytes, String> {
        let mut bytes = Bytes {
            given: vec![],
            made: 0,
        };
        for word in self.0.by_ref() {
            if let Some(made) = word.strip_prefix('+') {
                bytes.made = Rest([made].iter()).up_to(MOST_DATA)?;
                break;
            }
            bytes.given.extend(hexadecimal(word)?);
        }
        Ok(bytes)
    }

    /// Start and length of an entry.
    fn entry(&mut self) -> Result<[u16; 2], String> {
        let Span { start, length } = self.span()?;
        Ok([as_word(start)?, as_word(length)?])
    }

    /// All words of a command, those that are not given being zero.
    fn whole_command(&mut self) -> Result<Vec<u16>, String> {
        let mut values = vec![self.value()?];
        while self.0.len() > 0 {
            values.extend(self.entry()?);
        }
        if values.len() > PER_COMMAND {
            return Err(format!("more than {RECORDS_PER_COMMAND} entries"));
        }
        values.resize(PER_COMMAND, 0);
        Ok(values)
    }

    /// So many entries of the same length.
    fn entries(&mut self) -> Result<Vec<u16>, String> {
        let count = self.up_to(RECORDS_PER_COMMAND)? as u64;
        let [first, length] = self.entry()?;
        let step = u64::from(self.value()?);
        let starts = (0..count).map(|place| as_word(u64::from(first) + place * step));
        let pairs = starts.map(|start| Ok([start?, length]));
        let pairs: Vec<[u16; 2]> = pairs.collect::<Result<_, String>>()?;
        Ok(pairs.concat())
    }

    /// At least one value, each read alike, and not more than there is room for.
    fn values<T>(
        &mut self,
        room: usize,
        read: fn(&mut Self) -> Result<T, String>,
    ) -> Result<Vec<T>, String> {
        let mut values = vec![read(self)?];
        while self.0.len() > 0 {
            values.push(read(self)?);
        }
        if values.len() > room {
            return Err(format!("there are {room} values from that place on"));
        }
        Ok(values)
    }
}

/// A decimal number of digits alone.
fn parse_number(word: &str) -> Result<u64, String> {
    let digits = !word.is_empty() && word.bytes().all(|byte| byte.is_ascii_digit());
    let number = word.parse().ok().filter(|_| digits);
    number.ok_or_else(|| format!("'{word}' is no number of 64 bits"))
}

fn as_word(number: u64) -> Result<u16, String> {
    u16::try_from(number).map_err(|_| format!("{number} is above {}", u16::MAX))
}

/// The bytes of pairs of digits.
fn hexadecimal(word: &str) -> Result<Vec<u8>, String> {
    let wrong = || format!("'{word}' is not made of pairs of hexadecimal digits");
    if !word.bytes().all(|byte| byte.is_ascii_hexdigit()) || word.len() % 2 == 1 {
        return Err(wrong());
    }
    let pairs = (0..word.len()).step_by(2).map(|at| &word[at..at + 2]);
    pairs
        .map(|pair| u8::from_str_radix(pair, 16).map_err(|_| wrong()))
        .collect()
}

impl fmt::Display for Line {
    fn fmt(&self, out: &mut fmt::Formatter<'_>) -> fmt::Result {
        match self {
            Line::Part(title) => write!(out, "part {title}"),
            Line::Set(setting) => write!(out, "{setting}"),
            Line::Call(call, _) => write!(out, "{call}"),
            Line::Keep => write!(out, "keep"),
            Line::PutBack => write!(out, "put back"),
        }
    }
}
