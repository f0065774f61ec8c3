//! The race: how often what was checked is not what is used.

use std::hint::black_box;
use std::time::{Duration, Instant};

use crate::device::Device;
use crate::host::SharedWindow;
use crate::prey::{Prey, Words};

/// The runs go on until the attack has worked so often in each way around the
/// cache, since through the cache it then had as many chances,
const OFTEN: u64 = 20;

/// or until so much time has passed.
const PATIENCE: Duration = Duration::from_secs(20);

/// What was seen.
#[derive(Default)]
pub struct Seen {
    pub runs: u64,
    /// The turns of idle work between two plain looks.
    pub distance: u64,
    pub host_writes: u64,
    /// Two plain looks that differ.
    pub plain: u64,
    /// Looks by two commands that differ.
    pub two_commands: u64,
    /// Looks by one command that differ.
    pub cache: u64,
    /// Runs of one command in which each of the host's two values was used.
    pub used: [u64; 2],
}

impl Seen {
    /// Whether the attack works around the cache and never through it.
    pub fn is_good(&self) -> bool {
        self.plain > 0 && self.two_commands > 0 && self.cache == 0
    }

    /// Whether the attack has worked often in both ways around the cache.
    fn worked_often(&self) -> bool {
        self.plain >= OFTEN && self.two_commands >= OFTEN
    }

    /// The same in words.
    pub fn told(&self, words: Words) -> String {
        let part = |count: u64| 100.0 * count as f64 / self.runs.max(1) as f64;
        let [one, other] = words.values;
        let mut text = format!(
            "runs: {}\n\
             writes of the {} by the host: {}\n\
             one command saw {one} in {} runs and {other} in {}\n\
             checked and used {} differ:\n",
            self.runs, words.written, self.host_writes, self.used[0], self.used[1], words.compared
        );
        let counts = [self.plain, self.two_commands, self.cache];
        for (way, count) in words.ways.into_iter().zip(counts) {
            text += &format!("  {way}: {count} ({:.2} %)\n", part(count));
        }
        text
    }
}

/// Makes at least so many runs under attack.
pub fn run<P: Prey>(runs: u64) -> Seen {
    let window = SharedWindow::new();
    let distance = turns_of_a_look::<P>(window);
    let (seen, writes) = window.attacked(P::CHANGED, || {
        let mut trial = Trial::new(window, distance);
        let start = Instant::now();
        while trial.seen.runs < runs || (!trial.seen.worked_often() && start.elapsed() < PATIENCE) {
            trial.once::<P>();
        }
        trial.seen
    });
    Seen {
        host_writes: writes,
        ..seen
    }
}

/// The device, and what was seen so far.
struct Trial {
    window: SharedWindow,
    device: Device,
    seen: Seen,
}

impl Trial {
    fn new(window: SharedWindow, distance: u64) -> Trial {
        Trial {
            window,
            device: Device::new(window.raw()),
            seen: Seen {
                distance,
                ..Seen::default()
            },
        }
    }

    /// Checks and uses in each of the three ways.
    fn once<P: Prey>(&mut self) {
        self.seen.runs += 1;
        let checked = P::read(self.window);
        idle(self.seen.distance);
        self.seen.plain += u64::from(P::read(self.window) != checked);
        let [checked, used] = self.device.two_commands::<P>();
        self.seen.two_commands += u64::from(checked != used);
        let [checked, used] = self.device.one_command::<P>();
        self.seen.cache += u64::from(checked != used);
        for (value, count) in P::CHANGED.values.iter().zip(&mut self.seen.used) {
            *count += u64::from(P::value(used) == *value);
        }
    }
}

/// Work that touches no memory.
fn idle(turns: u64) {
    for turn in 0..turns {
        black_box(turn);
    }
}

/// So many turns of idle work take as long as the second look of a command:
/// the runs with it less those without it. Nobody attacks yet, so that all looks
/// are the same.
fn turns_of_a_look<P: Prey>(window: SharedWindow) -> u64 {
    const TURNS: u64 = 2_000;
    let mut device = Device::new(window.raw());
    let looks = device.one_command::<P>();
    assert!(looks == [P::read(window); 2], "a look at a window at rest");
    let with = quickest(|| _ = black_box(device.one_command::<P>()));
    let without = quickest(|| _ = black_box(device.check_only::<P>()));
    let turns = quickest(|| idle(TURNS)).as_nanos().max(1);
    (with.saturating_sub(without).as_nanos() * u128::from(TURNS) / turns) as u64
}

/// The shortest time of many.
fn quickest(mut work: impl FnMut()) -> Duration {
    let time = |_| {
        let start = Instant::now();
        work();
        start.elapsed()
    };
    (0..2_000).map(time).min().unwrap_or_default()
}
