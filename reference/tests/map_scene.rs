//! All that can be lent to a call of the byte map, kept together, so that a
//! refused call can be seen to change none of it.

use reference::byte_map::{self, ByteMap};
use reference::refusal::Refusal;
use sampling::generator::Generator;

/// A map and the two buffers.
#[derive(Clone, PartialEq, Eq)]
pub struct MapScene {
    pub map: ByteMap,
    pub window: Vec<u8>,
    pub destination: Vec<u8>,
}

impl MapScene {
    /// The fresh map, with the buffers full of any bytes.
    pub fn fresh(window_length: usize) -> MapScene {
        let mut generator = Generator::new(window_length as u64);
        MapScene {
            map: ByteMap::FRESH,
            window: generator.bytes(window_length),
            destination: generator.bytes(4_200),
        }
    }

    /// The same with an open map that holds these runs of any bytes.
    pub fn with_runs(window_length: usize, runs: &[(u64, u64)]) -> MapScene {
        MapScene {
            map: open_with(runs),
            ..MapScene::fresh(window_length)
        }
    }

    pub fn begin(&mut self) -> Result<(), u8> {
        self.guarded(|scene| byte_map::begin(&mut scene.map))
    }

    /// Answers the fresh and the replayed count.
    pub fn fetch(&mut self, address: u64, length: u64) -> Result<(u64, u64), u8> {
        self.guarded(|scene| {
            let destination = &mut scene.destination;
            byte_map::fetch(&mut scene.map, &scene.window, address, length, destination)
        })
        .map(|counts| (counts.fresh, counts.replayed))
    }

    /// Answers how many bytes were written and how many of their addresses were
    /// not held.
    pub fn own_write(&mut self, address: u64, data: &[u8]) -> Result<(u64, u64), u8> {
        self.guarded(|scene| byte_map::own_write(&mut scene.map, &mut scene.window, address, data))
            .map(|written| (written.bytes, written.fresh))
    }

    /// Answers the number of runs and of bytes.
    pub fn end(&mut self) -> Result<(u64, u64), u8> {
        self.guarded(|scene| byte_map::end(&mut scene.map))
            .map(|had| (had.records, had.bytes))
    }

    /// Start and length of each run.
    pub fn runs(&self) -> Vec<(u64, u64)> {
        let runs = self.map.runs().into_iter();
        runs.map(|run| (run.start, run.length)).collect()
    }

    /// Makes a call and, if it is refused, sees to it that nothing changed.
    fn guarded<Reply>(
        &mut self,
        call: impl FnOnce(&mut MapScene) -> Result<Reply, Refusal>,
    ) -> Result<Reply, u8> {
        let before = self.clone();
        call(self).map_err(|refusal| {
            assert!(*self == before, "{refusal:?} changed something");
            refusal.number()
        })
    }
}

/// An open map with these runs, each a start and a length, and values that are
/// not zero.
pub fn open_with(runs: &[(u64, u64)]) -> ByteMap {
    let mut map = ByteMap::FRESH;
    map.open = 1;
    for &(start, length) in runs {
        for address in start as usize..(start + length) as usize {
            set_bit(&mut map, address);
            map.values[address] = 1 + (address % 255) as u8;
        }
    }
    map
}

/// Sets the bit of an address, and nothing else.
pub fn set_bit(map: &mut ByteMap, address: usize) {
    map.words[address / 64] |= 1 << (address % 64);
}
