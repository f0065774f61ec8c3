//! Where random calls are drawn from.

use sampling::generator::Generator;

/// How spans are chosen, and among how many addresses.
pub type Spans = (fn(&mut Generator, u64) -> (u64, u64), u64);

/// Numbers, and one way to choose spans.
pub struct Source {
    pub numbers: Generator,
    spans: Spans,
}

impl Source {
    /// Each seed has numbers of its own, and one of these ways.
    pub fn new(seed: u64, ways: &[Spans]) -> Source {
        Source {
            numbers: Generator::new(seed),
            spans: ways[seed as usize % ways.len()],
        }
    }

    /// A span, a few of them with a senseless address.
    pub fn span(&mut self) -> (usize, usize) {
        let (choose, addresses) = self.spans;
        let (address, length) = choose(&mut self.numbers, addresses);
        let address = match self.numbers.below(60) {
            0 => usize::MAX - address as usize,
            _ => address as usize,
        };
        (address, length as usize)
    }
}
