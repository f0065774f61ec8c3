//! A journal: frames carried out one after the other, and their log.

use crate::calls::{host_write, Cache, Counts};
use crate::frames::{self, Frame};
use crate::text::Text;

/// The buffers that the calls of a run get.
struct Lent<'a> {
    store: &'a mut [u8],
    window: &'a mut [u8],
    destination: &'a mut [u8],
}

/// What the line of an accepted frame tells.
enum Reply {
    Nothing,
    Count(usize),
    Counts(Counts),
    /// Also the number of bytes that were delivered.
    Fetched(Counts, usize),
}

/// How many bytes of the log stand in the output, how many frames were carried
/// out and how many a call refused, and whether an unreadable one ended the
/// run.
#[derive(Clone, Copy, Debug, Default, PartialEq, Eq)]
pub struct Run {
    pub written: usize,
    pub carried: usize,
    pub refused: usize,
    pub early: bool,
}

/// Runs a journal from the fresh state and writes its log.
pub fn replay<const CHECKED: bool>(
    input: &[u8],
    store: &mut [u8],
    window: &mut [u8],
    destination: &mut [u8],
    output: &mut [u8],
) -> Run {
    let mut lent = Lent {
        store,
        window,
        destination,
    };
    let mut log = Text::new(output);
    let run = carry_out::<CHECKED>(input, &mut lent, &mut log);
    Run {
        written: log.written,
        ..run
    }
}

/// Carries out the frames and puts their lines.
fn carry_out<const CHECKED: bool>(input: &[u8], lent: &mut Lent, log: &mut Text) -> Run {
    let mut cache = Cache::<CHECKED>::fresh();
    let mut run = Run::default();
    let mut rest = input;
    while !rest.is_empty() && !run.early {
        let number = run.carried + run.refused + 1;
        match frames::read(rest) {
            Ok(frame) => {
                rest = &rest[frame.taken..];
                let answer = call(&mut cache, lent, &frame);
                if answer.is_ok() {
                    run.carried += 1;
                } else {
                    run.refused += 1;
                }
                put_line(log, number, frame.letter, answer, lent.destination);
            }
            Err(refusal) => {
                run.early = true;
                put_line(log, number, b'?', Err(refusal), lent.destination);
            }
        }
    }
    run
}

/// Makes the call of a frame.
fn call<const CHECKED: bool>(
    cache: &mut Cache<CHECKED>,
    lent: &mut Lent,
    frame: &Frame,
) -> Result<Reply, u8> {
    let command = frame.command;
    match frame.letter {
        b'B' => cache.begin(lent.store, command).map(|()| Reply::Nothing),
        b'E' => cache.end(lent.store, command).map(Reply::Counts),
        b'H' => host_write(lent.window, frame.address, frame.data).map(Reply::Count),
        b'W' => cache
            .own_write(lent.store, lent.window, command, frame.address, frame.data)
            .map(Reply::Counts),
        _ => cache
            .fetch(
                lent.store,
                lent.window,
                lent.destination,
                command,
                frame.address,
                frame.length,
            )
            .map(|reply| Reply::Fetched((reply.fresh, reply.replayed), frame.length)),
    }
}

/// The line of a frame.
fn put_line(
    log: &mut Text,
    number: usize,
    letter: u8,
    answer: Result<Reply, u8>,
    destination: &[u8],
) {
    log.put_decimal(number);
    log.put(&[b' ', letter]);
    match answer {
        Err(refusal) => {
            log.put(b" no");
            log.put_number(usize::from(refusal));
        }
        Ok(reply) => {
            log.put(b" ok");
            put_reply(log, reply, destination);
        }
    }
    log.put(b"\n");
}

fn put_reply(log: &mut Text, reply: Reply, destination: &[u8]) {
    match reply {
        Reply::Nothing => {}
        Reply::Count(count) => log.put_number(count),
        Reply::Counts((one, other)) => {
            log.put_number(one);
            log.put_number(other);
        }
        Reply::Fetched((fresh, replayed), length) => {
            log.put_number(fresh);
            log.put_number(replayed);
            if length == 0 {
                log.put(b" -");
            } else {
                log.put(b" ");
                log.put_hex(&destination[..length]);
            }
        }
    }
}
