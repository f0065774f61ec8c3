//! Numbers from the bytes of an input. Behind its end there are zeros.

/// The bytes that are not read yet.
pub struct Input<'a>(pub &'a [u8]);

impl Input<'_> {
    pub fn is_empty(&self) -> bool {
        self.0.is_empty()
    }

    pub fn byte(&mut self) -> u8 {
        match self.0.split_first() {
            Some((first, rest)) => {
                self.0 = rest;
                *first
            }
            None => 0,
        }
    }

    /// So many bytes, or as many as there are.
    pub fn bytes(&mut self, most: usize) -> Vec<u8> {
        let (front, rest) = self.0.split_at(most.min(self.0.len()));
        self.0 = rest;
        front.to_vec()
    }

    pub fn word(&mut self) -> u16 {
        u16::from_le_bytes([self.byte(), self.byte()])
    }

    /// A number of any size. Most are below the bound, where calls are accepted,
    /// and small, where spans meet; some are next to the bound.
    pub fn number(&mut self, bound: u64) -> u64 {
        match self.byte() % 16 {
            0..=8 => u64::from(self.byte()) % bound,
            9..=12 => u64::from(self.word()) % bound,
            13..=14 => (bound - 2).wrapping_add(u64::from(self.byte() % 5)),
            _ => u64::from_le_bytes([(); 8].map(|()| self.byte())),
        }
    }

    /// The same, and not above the most.
    pub fn up_to(&mut self, bound: u64, most: usize) -> usize {
        self.number(bound).min(most as u64) as usize
    }
}

#[cfg(test)]
mod tests {
    use super::*;

    #[test]
    fn numbers_of_every_kind() {
        let number = |bytes: &[u8]| Input(bytes).number(100);
        assert_eq!(number(&[0, 7]), 7);
        assert_eq!(number(&[8, 207]), 7);
        assert_eq!(number(&[9, 1, 1]), 57);
        assert_eq!(number(&[13, 0]), 98);
        assert_eq!(number(&[14, 4]), 102);
        assert_eq!(number(&[255; 9]), u64::MAX);
        assert_eq!(number(&[]), 0);
        assert_eq!(Input(&[255; 9]).up_to(100, 5), 5);
    }

    #[test]
    fn bytes_end_with_the_input() {
        let mut input = Input(&[1, 2, 3]);
        assert_eq!(input.bytes(2), [1, 2]);
        assert_eq!(input.bytes(2), [3]);
        assert!(input.is_empty());
        assert_eq!(input.byte(), 0);
    }
}
