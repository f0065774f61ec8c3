//! What a journal does, worked out from its frames and from the log that the
//! reference gives for it.

use compare::journals::{journal, Profile, PROFILES};
use compare::tally::Tally;
use reference::frames::{read_frame, Step};
use reference::log;

const WINDOW: u64 = 16_384;

/// An address and a length.
type Span = (u64, u64);

/// Counts over journals. An earlier span is one that the same command fetched or
/// wrote since its begin; held are the bytes of earlier spans of any open command.
#[derive(Debug, Default)]
pub struct Census {
    pub journals: u64,
    pub tally: Tally,
    /// Journals without a frame that cannot be read.
    pub readable: u64,
    /// Journals of more than 32,000 bytes.
    pub filled: u64,
    /// Fetches that share a byte with an earlier span, neither inside the
    /// other.
    pub overlapping: u64,
    /// Fetches that share no byte with an earlier span, by what they touch:
    /// one that ends where they start, one that starts where they end, both.
    pub touch_below: u64,
    pub touch_above: u64,
    pub touch_both: u64,
    /// Fetches inside or around an earlier span and not the same.
    pub nested: u64,
    /// Accepted fetches without a byte.
    pub empty: u64,
    /// Accepted fetches and writes of the window's last byte.
    pub last_byte: u64,
    /// Frames whose span has addresses above 65,535.
    pub above_16_bits: u64,
    /// Accepted writes over held bytes.
    pub host_over_held: u64,
    pub own_over_held: u64,
    /// Own writes over some addresses that the command held and some others.
    pub own_mixed: u64,
    /// Fetches that delivered other bytes than stood in the window.
    pub stale: u64,
    /// The most commands that were open at once.
    pub most_open: usize,
}

/// The census of so many journals of one profile, by its name.
pub fn of_profile(name: &str, journals: usize) -> Census {
    let seeds = (0..PROFILES * journals as u64).filter(|seed| Profile::of(*seed).name() == name);
    let mut census = Census::default();
    for seed in seeds {
        census.take(&journal(seed).bytes);
    }
    assert_eq!(census.journals, journals as u64, "no profile {name}");
    census
}

impl Census {
    /// Goes through a journal, frame by frame and line by line.
    fn take(&mut self, bytes: &[u8]) {
        let log = log::run(bytes);
        let mut device = Device::new();
        let mut rest = bytes;
        for line in log.lines() {
            let Ok(frame) = read_frame(rest) else {
                break;
            };
            rest = &rest[frame.consumed..];
            self.look_at(&mut device, &frame.step, &fields(line));
            self.most_open = self.most_open.max(device.open());
        }
        self.journals += 1;
        self.tally.add(&Tally::of_log(log.as_bytes()));
        self.readable += u64::from(rest.is_empty());
        self.filled += u64::from(bytes.len() > 32_000);
    }

    /// One frame with the fields of its line from `ok` or `no` on.
    fn look_at(&mut self, device: &mut Device, step: &Step, answer: &[&str]) {
        let accepted = answer[0] == "ok";
        match *step {
            Step::Begin { command } if accepted => device.spans[command as usize] = Some(vec![]),
            Step::End { command } if accepted => device.spans[command as usize] = None,
            Step::Begin { .. } | Step::End { .. } => (),
            Step::Fetch {
                command,
                address,
                length,
            } => {
                self.look_at_span((address, length), accepted);
                if accepted {
                    self.look_at_fetch(device, command, (address, length), answer[3]);
                }
            }
            Step::HostWrite { address, data } => {
                self.look_at_span((address, data.len() as u64), accepted);
                self.host_over_held += u64::from(accepted && device.write(address, data));
            }
            Step::OwnWrite {
                command,
                address,
                data,
            } => {
                let span = (address, data.len() as u64);
                self.look_at_span(span, accepted);
                self.own_over_held += u64::from(accepted && device.write(address, data));
                self.own_mixed += u64::from(accepted && !["0", answer[1]].contains(&answer[2]));
                device.hold(command, span, accepted);
            }
        }
    }

    fn look_at_span(&mut self, span: Span, accepted: bool) {
        self.above_16_bits += u64::from(end(span) > 65_536);
        self.last_byte += u64::from(accepted && span.1 > 0 && end(span) == WINDOW);
    }

    fn look_at_fetch(&mut self, device: &mut Device, command: u64, span: Span, digits: &str) {
        if span.1 == 0 {
            self.empty += 1;
            return;
        }
        self.stale += u64::from(digits != device.digits(span));
        let earlier = device.spans[command as usize].as_ref().unwrap();
        let meets = |meet: fn(Span, Span) -> bool| earlier.iter().any(|other| meet(span, *other));
        self.overlapping += u64::from(meets(overlap));
        self.nested += u64::from(meets(nest));
        if !meets(shares) {
            let (below, above) = (meets(ends_below), meets(starts_above));
            self.touch_below += u64::from(below && !above);
            self.touch_above += u64::from(above && !below);
            self.touch_both += u64::from(below && above);
        }
        device.hold(command, span, true);
    }
}

/// The fields of a line that stand behind number and letter, then dashes.
fn fields(line: &str) -> Vec<&str> {
    line.split(' ').skip(2).chain(["-"; 4]).collect()
}

/// The window, and the spans that each open command has fetched or written.
struct Device {
    window: Vec<u8>,
    spans: [Option<Vec<Span>>; 8],
}

impl Device {
    fn new() -> Device {
        Device {
            window: vec![0; WINDOW as usize],
            spans: [const { None }; 8],
        }
    }

    fn open(&self) -> usize {
        self.spans.iter().flatten().count()
    }

    /// Takes an earlier span into those of its command, if it was accepted and
    /// has a byte.
    fn hold(&mut self, command: u64, span: Span, accepted: bool) {
        let open = self.spans[command as usize].as_mut();
        if let Some(spans) = open.filter(|_| accepted && span.1 > 0) {
            spans.push(span);
        }
    }

    /// Carries out a write and answers whether it met held bytes.
    fn write(&mut self, address: u64, data: &[u8]) -> bool {
        let span = (address, data.len() as u64);
        self.window[address as usize..][..data.len()].copy_from_slice(data);
        let mut held = self.spans.iter().flatten().flatten();
        held.any(|other| shares(span, *other))
    }

    /// What stands in the window at a span, as the log would print it.
    fn digits(&self, (address, length): Span) -> String {
        let bytes = &self.window[address as usize..][..length as usize];
        bytes.iter().map(|byte| format!("{byte:02x}")).collect()
    }
}

fn end((address, length): Span) -> u64 {
    address + length
}

fn shares(one: Span, other: Span) -> bool {
    one.0.max(other.0) < end(one).min(end(other))
}

fn inside(one: Span, other: Span) -> bool {
    other.0 <= one.0 && end(one) <= end(other)
}

fn overlap(one: Span, other: Span) -> bool {
    shares(one, other) && !inside(one, other) && !inside(other, one)
}

fn ends_below(one: Span, other: Span) -> bool {
    end(other) == one.0
}

fn starts_above(one: Span, other: Span) -> bool {
    end(one) == other.0
}

fn nest(one: Span, other: Span) -> bool {
    one != other && (inside(one, other) || inside(other, one))
}
