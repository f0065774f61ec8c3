//! How a span lies among records, and the bytes of the record that joins them.

use crate::state::{end, held, length, start, Record};

/// How many records end below an address, and the bytes that they hold. One
/// walk for both is faster than a binary search and a sum.
pub fn passed(records: &[Record], address: usize) -> (usize, usize) {
    let (mut count, mut bytes) = (0, 0);
    for record in records {
        if end(*record) >= address {
            break;
        }
        count += 1;
        bytes += length(*record);
    }
    (count, bytes)
}

/// How many records a search looks at where so many start at the end of its span
/// or below: the one behind them, if there is one, ends it.
pub fn looked_at(records: &[Record], last: usize) -> usize {
    records.len().min(last + 1)
}

/// A span shares a byte with the records from `first` up to `last` or touches
/// them, and reaches with them from `low` up to `high`; they hold so many bytes.
pub struct Meeting {
    pub first: usize,
    pub last: usize,
    pub low: usize,
    pub high: usize,
    held: usize,
}

impl Meeting {
    /// The first record that ends at the address or behind it is known.
    pub fn of(records: &[Record], first: usize, address: usize, stop: usize) -> Meeting {
        let behind = &records[first..];
        let count = behind.iter().take_while(|record| start(**record) <= stop);
        let met = &behind[..count.count()];
        let (low, high) = match met {
            [] => (address, stop),
            [one, ..] => (address.min(start(*one)), stop.max(end(met[met.len() - 1]))),
        };
        Meeting {
            first,
            last: first + met.len(),
            low,
            high,
            held: held(met),
        }
    }

    pub fn length(&self) -> usize {
        self.high - self.low
    }

    pub fn fresh(&self) -> usize {
        self.length() - self.held
    }

    /// The joined record.
    pub fn record(&self) -> Record {
        [self.low as u16, self.length() as u16]
    }

    /// Moves what stands behind up, and puts the bytes of the joined record
    /// side by side, from the last record met down; each gap between them is
    /// filled by its address. The part starts where the joined record does.
    pub fn spread(
        &self,
        part: &mut [u8],
        met: &[Record],
        behind: usize,
        mut fill: impl FnMut(&mut [u8], usize),
    ) {
        let mut old = self.held;
        let mut new = self.length();
        part.copy_within(old..old + behind, new);
        let mut top = self.high;
        for record in met.iter().rev() {
            let (from, to) = (start(*record), end(*record));
            new -= top - to;
            if to < top {
                fill(&mut part[new..][..top - to], to);
            }
            old -= length(*record);
            new -= length(*record);
            if old < new {
                part.copy_within(old..old + length(*record), new);
            }
            top = from;
        }
        if self.low < top {
            fill(&mut part[..top - self.low], self.low);
        }
    }
}
