//! The bit layout of a frame, worked out with strings of ones and zeroes.

/// The five bytes of the fields, with the spare bits as given.
pub fn head(kind: u64, command: u64, address: u64, length: u64, spare: u64) -> Vec<u8> {
    let bits = format!("{kind:03b}{command:03b}{address:016b}{length:013b}{spare:05b}");
    assert_eq!(bits.len(), 40, "a field is too large for a frame");
    (0..5)
        .map(|place| u8::from_str_radix(&bits[8 * place..8 * place + 8], 2).unwrap())
        .collect()
}

/// A whole frame: the five bytes with zero spare bits, and the data.
pub fn frame(kind: u64, command: u64, address: u64, length: u64, data: &[u8]) -> Vec<u8> {
    let mut bytes = head(kind, command, address, length, 0);
    bytes.extend_from_slice(data);
    bytes
}
