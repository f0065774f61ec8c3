//! A call with what it is given, and what sets the ground for the calls after
//! it; each can be written as a line of the file.

use std::fmt;

use reference::book::Span;
use reference::walk::Transfer;
use sampling::generator::Generator;

use crate::buffers::Name;

/// The most bytes that are made for a call.
pub const MOST_DATA: usize = 70_000;

/// One call of the library.
#[derive(Clone, Debug, PartialEq, Eq)]
pub enum Call {
    Release,
    Fresh,
    Begin {
        command: u64,
    },
    Fetch {
        command: u64,
        span: Span,
    },
    End {
        command: u64,
    },
    /// A host write of as many bytes as the span has.
    Host {
        span: Span,
    },
    /// The same by a command.
    Own {
        command: u64,
        span: Span,
    },
    Show {
        command: u64,
        index: u64,
    },
    Walk {
        command: u64,
        transfer: Transfer,
    },
    Read(Bytes),
    /// A frame written with so many bytes of data.
    Write {
        kind: u64,
        command: u64,
        span: Span,
        data: usize,
    },
    Replay(Bytes),
    /// The calls of the byte map.
    MapFresh,
    MapBegin,
    MapFetch {
        span: Span,
    },
    MapEnd,
    /// An own write of as many bytes as the span has.
    MapOwn {
        span: Span,
    },
}

/// Bytes as they stand, and how many made ones follow.
#[derive(Clone, Debug, PartialEq, Eq)]
pub struct Bytes {
    pub given: Vec<u8>,
    pub made: usize,
}

/// What is set for the calls that follow.
#[derive(Clone, Debug, PartialEq, Eq)]
pub enum Setting {
    /// Only so much of a buffer is lent.
    Lend { buffer: Name, length: usize },
    /// A buffer gets the bytes of a seed.
    Fill { buffer: Name, seed: u64 },
    /// The window gets page entries, from an address on.
    Prps { address: usize, values: Vec<u64> },
    /// Words of a command, from a place on.
    Words {
        command: usize,
        place: usize,
        values: Vec<u16>,
    },
    /// What the byte map has for open.
    MapOpen { value: u64 },
    /// Words of the byte map, from a place on.
    MapWords { place: usize, values: Vec<u64> },
    /// Values of the byte map, from an address on.
    MapValues { place: usize, values: Vec<u8> },
    /// So many spans of the byte map, each a step further on: their bits are set,
    /// and each of their addresses gets a value that is not zero.
    MapRuns { count: u64, span: Span, step: u64 },
}

impl Call {
    /// The first word of the call's line.
    pub fn name(&self) -> &'static str {
        match self {
            Call::Release => "release",
            Call::Fresh => "fresh",
            Call::Begin { .. } => "begin",
            Call::Fetch { .. } => "fetch",
            Call::End { .. } => "end",
            Call::Host { .. } => "host",
            Call::Own { .. } => "own",
            Call::Show { .. } => "show",
            Call::Walk { .. } => "walk",
            Call::Read(_) => "read",
            Call::Write { .. } => "write",
            Call::Replay(_) => "replay",
            Call::MapFresh => "map-fresh",
            Call::MapBegin => "map-begin",
            Call::MapFetch { .. } => "map-fetch",
            Call::MapEnd => "map-end",
            Call::MapOwn { .. } => "map-own",
        }
    }

    /// Whether it is one of the byte map.
    pub fn is_of_the_map(&self) -> bool {
        self.name().starts_with("map-")
    }

    /// The bytes that the call is given and that it only reads.
    pub fn data(&self, seed: u64) -> Vec<u8> {
        match self {
            Call::Host { span } | Call::Own { span, .. } | Call::MapOwn { span } => {
                made_bytes(seed, span.length as usize)
            }
            Call::Write { data, .. } => made_bytes(seed, *data),
            Call::Read(bytes) | Call::Replay(bytes) => {
                [bytes.given.clone(), made_bytes(seed, bytes.made)].concat()
            }
            _ => vec![],
        }
    }
}

/// Bytes that depend on the seed alone.
pub fn made_bytes(seed: u64, length: usize) -> Vec<u8> {
    Generator::new(seed).bytes(length)
}

impl fmt::Display for Call {
    fn fmt(&self, out: &mut fmt::Formatter<'_>) -> fmt::Result {
        write!(out, "{}", self.name())?;
        match self {
            Call::Release | Call::Fresh => Ok(()),
            Call::MapFresh | Call::MapBegin | Call::MapEnd => Ok(()),
            Call::Begin { command } | Call::End { command } => write!(out, " {command}"),
            Call::Fetch { command, span } | Call::Own { command, span } => {
                write!(out, " {command} {}+{}", span.start, span.length)
            }
            Call::Host { span } | Call::MapFetch { span } | Call::MapOwn { span } => {
                write!(out, " {}+{}", span.start, span.length)
            }
            Call::Show { command, index } => write!(out, " {command} {index}"),
            Call::Walk { command, transfer } => {
                let Transfer { prp1, prp2, length } = transfer;
                write!(out, " {command} {prp1} {prp2} {length}")
            }
            Call::Read(bytes) | Call::Replay(bytes) => write!(out, "{bytes}"),
            Call::Write {
                kind,
                command,
                span,
                data,
            } => {
                write!(out, " {kind} {command} {}+{}", span.start, span.length)?;
                write!(out, " {data}")
            }
        }
    }
}

impl fmt::Display for Bytes {
    fn fmt(&self, out: &mut fmt::Formatter<'_>) -> fmt::Result {
        for byte in &self.given {
            write!(out, " {byte:02x}")?;
        }
        match self.made {
            0 => Ok(()),
            made => write!(out, " +{made}"),
        }
    }
}

impl fmt::Display for Setting {
    fn fmt(&self, out: &mut fmt::Formatter<'_>) -> fmt::Result {
        match self {
            Setting::Lend { buffer, length } => write!(out, "lend {} {length}", buffer.word()),
            Setting::Fill { buffer, seed } => write!(out, "fill {} {seed}", buffer.word()),
            Setting::Prps { address, values } => {
                write!(out, "prp {address}")?;
                values.iter().try_for_each(|value| write!(out, " {value}"))
            }
            Setting::Words {
                command,
                place,
                values,
            } => {
                write!(out, "words {command} {place}")?;
                values.iter().try_for_each(|value| write!(out, " {value}"))
            }
            Setting::MapOpen { value } => write!(out, "map-open {value}"),
            Setting::MapWords { place, values } => {
                write!(out, "map-words {place}")?;
                values.iter().try_for_each(|value| write!(out, " {value}"))
            }
            Setting::MapValues { place, values } => {
                write!(out, "map-values {place}")?;
                values.iter().try_for_each(|value| write!(out, " {value}"))
            }
            Setting::MapRuns { count, span, step } => {
                let Span { start, length } = span;
                write!(out, "map-runs {count} {start}+{length} {step}")
            }
        }
    }
}
