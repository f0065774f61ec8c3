//! A list of calls and settings from the bytes of an input.

use calls::buffers::{Name, NAMES};
use calls::call::{Bytes, Call, Setting, MOST_DATA};
use calls::line::Line;
use calls::words::PER_COMMAND;
use reference::book::Span;
use reference::limits::{
    BYTES_PER_CALL, COMMANDS, ENTRY_BYTES, MAP_ADDRESSES, MAP_WORDS, PAGE_BYTES,
    RECORDS_PER_COMMAND, WALK_SPANS, WALK_TRANSFER_BYTES, WINDOW_BYTES,
};
use reference::walk::Transfer;

use crate::input::Input;

/// The most lines of a list.
const LINES: usize = 100;

/// The kinds of a frame and the three that there are not.
const KINDS: u64 = 8;

/// How many pages most walks and page entries are about.
const PAGES: u64 = 4;

/// The lines that the bytes stand for.
pub fn lines(bytes: &[u8]) -> Vec<Line> {
    let mut input = Input(bytes);
    let mut lines = vec![];
    while !input.is_empty() && lines.len() < LINES {
        lines.push(line(&mut input));
    }
    lines
}

fn line(input: &mut Input) -> Line {
    let call = match input.byte() % 48 {
        0..=3 => Call::Begin {
            command: command(input),
        },
        4..=14 => Call::Fetch {
            command: command(input),
            span: span(input),
        },
        15..=16 => Call::End {
            command: command(input),
        },
        17..=18 => Call::Host {
            span: short(span(input)),
        },
        19..=20 => Call::Own {
            command: command(input),
            span: short(span(input)),
        },
        21..=22 => Call::Show {
            command: command(input),
            index: input.number(RECORDS_PER_COMMAND as u64),
        },
        23..=24 => Call::Read(given(input)),
        25..=26 => write(input),
        27 => Call::Replay(given(input)),
        28 => return Line::Set(lend(input)),
        29..=30 => return Line::Set(words(input)),
        31 if input.byte() % 2 == 0 => Call::Fresh,
        31 => Call::Release,
        40..=44 => Call::Walk {
            command: command(input),
            transfer: transfer(input),
        },
        45..=47 => return Line::Set(entries(input)),
        _ => return map_line(input),
    };
    Line::Call(call, vec![])
}

/// A line of the byte map.
fn map_line(input: &mut Input) -> Line {
    let call = match input.byte() % 16 {
        0 => return Line::Set(map_window(input)),
        1..=2 => return Line::Set(map_part(input)),
        3..=4 => Call::MapBegin,
        5 if input.byte() % 8 == 0 => Call::MapFresh,
        5 => Call::MapEnd,
        6..=8 => Call::MapOwn {
            span: short(map_span(input)),
        },
        _ => Call::MapFetch {
            span: map_span(input),
        },
    };
    Line::Call(call, vec![])
}

fn command(input: &mut Input) -> u64 {
    input.number(COMMANDS as u64)
}

fn span(input: &mut Input) -> Span {
    Span {
        start: input.number(WINDOW_BYTES as u64),
        length: input.number(BYTES_PER_CALL as u64 + 1),
    }
}

/// A span that the byte map may have.
fn map_span(input: &mut Input) -> Span {
    Span {
        start: input.number(MAP_ADDRESSES as u64),
        length: input.number(BYTES_PER_CALL as u64 + 1),
    }
}

/// The span, with no more bytes than can be made for it.
fn short(span: Span) -> Span {
    let length = span.length.min(MOST_DATA as u64);
    Span { length, ..span }
}

/// A transfer of so many pages, less some bytes. Where it starts and its PRP2 are
/// near the border of a page.
fn transfer(input: &mut Input) -> Transfer {
    let prp1 = near_a_border(input, 4);
    let prp2 = near_a_border(input, ENTRY_BYTES as u64);
    let pages = u64::from(input.byte()) % (WALK_SPANS as u64 + 1);
    let less = input.number(WALK_TRANSFER_BYTES as u64);
    Transfer {
        prp1,
        prp2,
        length: (PAGE_BYTES as u64 * pages).wrapping_sub(less),
    }
}

/// An address at the border of a page, or up to 32 steps before it.
fn near_a_border(input: &mut Input, step: u64) -> u64 {
    let back = step * u64::from(input.byte() % 64).saturating_sub(31);
    page(input).wrapping_sub(back)
}

/// The address of a page, mostly one of a few, so that lists meet, and rarely off
/// by some bytes.
fn page(input: &mut Input) -> u64 {
    let page = input.number(PAGES);
    let off = match input.byte() {
        byte @ 250.. => 1 << (byte - 244),
        _ => 0,
    };
    page.wrapping_mul(PAGE_BYTES as u64) | off
}

/// Page entries at the border of two pages, or from some before it on: a page
/// again and again, or pages with the same step between them.
fn entries(input: &mut Input) -> Setting {
    let size = Name::Window.size();
    let address = near_a_border(input, ENTRY_BYTES as u64).min(size as u64) as usize;
    let room = (size - address) / ENTRY_BYTES;
    let count = (1 + usize::from(input.byte()) % (2 * WALK_SPANS)).min(room) as u64;
    let first = page(input);
    let step = match input.byte() % 2 {
        0 => 0,
        _ => page(input),
    };
    let value = |place: u64| first.wrapping_add(step.wrapping_mul(place));
    Setting::Prps {
        address,
        values: (0..count).map(value).collect(),
    }
}

/// Bytes of the input, and some made ones.
fn given(input: &mut Input) -> Bytes {
    let given = usize::from(input.byte());
    Bytes {
        given: input.bytes(given),
        made: input.up_to(BYTES_PER_CALL as u64 + 1, MOST_DATA),
    }
}

/// A frame, more often than not with as many bytes of data as its length says.
fn write(input: &mut Input) -> Call {
    let (kind, command, span) = (input.number(KINDS), command(input), span(input));
    let fitting = span.length.min(MOST_DATA as u64) as usize;
    let data = match input.byte() % 4 {
        0 => 0,
        1 => input.up_to(BYTES_PER_CALL as u64 + 1, MOST_DATA),
        _ => fitting,
    };
    Call::Write {
        kind,
        command,
        span,
        data,
    }
}

/// Another length of a buffer; it is the usual one as often.
fn lend(input: &mut Input) -> Setting {
    let buffer = NAMES[usize::from(input.byte()) % NAMES.len()];
    let length = match input.byte() % 2 {
        0 => buffer.usual(),
        _ => input.up_to(buffer.usual() as u64, buffer.size()),
    };
    Setting::Lend { buffer, length }
}

/// A few words of a command.
fn words(input: &mut Input) -> Setting {
    let command = usize::from(input.byte()) % COMMANDS;
    let place = usize::from(input.byte()) % PER_COMMAND;
    let count = 1 + usize::from(input.byte()) % 6;
    Setting::Words {
        command,
        place,
        values: (0..count.min(PER_COMMAND - place))
            .map(|_| input.number(1 << 16) as u16)
            .collect(),
    }
}

/// A window that the calls of the byte map take, or just do not.
fn map_window(input: &mut Input) -> Setting {
    let buffer = Name::Window;
    let length = match input.byte() % 2 {
        0 => MAP_ADDRESSES,
        _ => input.up_to(MAP_ADDRESSES as u64, buffer.size()),
    };
    Setting::Lend { buffer, length }
}

/// A part of the byte map: open, a word or a value, or spans that are held.
fn map_part(input: &mut Input) -> Setting {
    match input.byte() % 8 {
        0 => Setting::MapOpen {
            value: input.number(2),
        },
        1 => Setting::MapWords {
            place: usize::from(input.byte()) % MAP_WORDS,
            values: vec![input.number(u64::MAX)],
        },
        2 => Setting::MapValues {
            place: usize::from(input.word()) % MAP_ADDRESSES,
            values: vec![input.byte()],
        },
        _ => map_runs(input),
    }
}

/// Spans of at most four addresses; the map has them all.
fn map_runs(input: &mut Input) -> Setting {
    let step = u64::from(input.byte() % 61);
    let count = u64::from(input.byte() % 67);
    let length = u64::from(input.byte() % 5);
    let room = MAP_ADDRESSES as u64 - count * step - length;
    let start = input.number(room).min(room);
    Setting::MapRuns {
        count,
        span: Span { start, length },
        step,
    }
}

#[cfg(test)]
mod tests {
    use super::*;
    use calls::maps;

    #[test]
    fn a_list_ends_with_its_bytes_or_is_full() {
        assert!(lines(&[]).is_empty());
        assert_eq!(lines(&[0]).len(), 1);
        assert_eq!(lines(&[31; 1_000]).len(), LINES);
        assert_eq!(lines(&[36; 1_000]).len(), LINES);
    }

    #[test]
    fn calls_are_what_the_bytes_say() {
        let begin = Call::Begin { command: 3 };
        let span = Span {
            start: 64,
            length: 9,
        };
        let fetch = Call::Fetch { command: 3, span };
        let bytes = [0, 0, 3, 4, 0, 3, 0, 64, 0, 9];
        let wanted = [begin, fetch].map(|call| Line::Call(call, vec![]));
        assert_eq!(lines(&bytes), wanted);
        let (fetch, own) = (Call::MapFetch { span }, Call::MapOwn { span });
        let calls = [Call::MapBegin, fetch, own, Call::MapEnd];
        let wanted = calls.map(|call| Line::Call(call, vec![]));
        let (first, last) = ([32, 3, 33, 9, 0, 64, 0, 9], [34, 6, 0, 64, 0, 9, 39, 5, 1]);
        assert_eq!(lines(&[&first[..], &last].concat()), wanted);
    }

    #[test]
    fn a_walk_and_its_entries_are_what_the_bytes_say() {
        let walk = Call::Walk {
            command: 3,
            transfer: Transfer {
                prp1: 3 * 4_096 - 4,
                prp2: 2 * 4_096 - 8,
                length: 5 * 4_096 - 7,
            },
        };
        let entries = Setting::Prps {
            address: 2 * 4_096 - 8,
            values: vec![3 * 4_096, 4 * 4_096 + 64],
        };
        let set = [45, 32, 0, 2, 0, 1, 0, 3, 0, 1, 0, 1, 250];
        let walked = [40, 0, 3, 32, 0, 3, 0, 32, 0, 2, 0, 5, 0, 7];
        let wanted = [Line::Set(entries), Line::Call(walk, vec![])];
        assert_eq!(lines(&[&set[..], &walked].concat()), wanted);
    }

    #[test]
    fn entries_have_room_in_the_window() {
        for byte in 0..=255 {
            for other in [0, 13, 15, 255] {
                let bytes = [byte, other, 255, 255 - byte, byte, other, byte, 255];
                let setting = entries(&mut Input(&bytes));
                let Setting::Prps { address, values } = setting else {
                    panic!("{setting}");
                };
                assert!(address + ENTRY_BYTES * values.len() <= Name::Window.size());
            }
        }
    }

    #[test]
    fn spans_of_the_map_are_in_it() {
        let mut most = 0;
        for byte in 0..=255 {
            for other in [0, 60, 66, 255] {
                let bytes = [byte, other, 255 - byte, other, byte, 255];
                let setting = map_runs(&mut Input(&bytes));
                let Setting::MapRuns { count, span, step } = setting else {
                    panic!("{setting}");
                };
                let end = maps::end_of_runs(count, span.start, span.length, step);
                most = most.max(end.expect("addresses of the map"));
            }
        }
        assert!(most > 4_000, "{most}");
    }
}
