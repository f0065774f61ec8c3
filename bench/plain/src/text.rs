//! Text that is put into a buffer as far as it fits.

/// Two characters for each byte.
static HEX: [[u8; 2]; 256] = hex_table();

const fn hex_table() -> [[u8; 2]; 256] {
    let digits = b"0123456789abcdef";
    let mut table = [[0; 2]; 256];
    let mut byte = 0;
    while byte < 256 {
        table[byte] = [digits[byte >> 4], digits[byte & 15]];
        byte += 1;
    }
    table
}

/// A buffer, and how much of it has been written.
pub struct Text<'a> {
    buffer: &'a mut [u8],
    pub written: usize,
}

impl Text<'_> {
    pub fn new(buffer: &mut [u8]) -> Text<'_> {
        Text { buffer, written: 0 }
    }

    /// Most texts are short, of known length, and find room: no more than a
    /// store where it is called.
    #[inline]
    pub fn put(&mut self, text: &[u8]) {
        let room = &mut self.buffer[self.written..];
        match room.get_mut(..text.len()) {
            Some(room) => {
                room.copy_from_slice(text);
                self.written += text.len();
            }
            None => {
                room.copy_from_slice(&text[..room.len()]);
                self.written = self.buffer.len();
            }
        }
    }

    pub fn put_decimal(&mut self, number: usize) {
        if number >= 10 {
            self.put_decimal(number / 10);
        }
        self.put(&[b'0' + (number % 10) as u8]);
    }

    /// A blank and a number.
    pub fn put_number(&mut self, number: usize) {
        self.put(b" ");
        self.put_decimal(number);
    }

    pub fn put_hex(&mut self, bytes: &[u8]) {
        let room = &mut self.buffer[self.written..];
        let fits = room.len().min(2 * bytes.len());
        let room = &mut room[..fits];
        for (place, byte) in room.chunks_exact_mut(2).zip(bytes) {
            place.copy_from_slice(&HEX[usize::from(*byte)]);
        }
        if fits % 2 == 1 {
            room[fits - 1] = HEX[usize::from(bytes[fits / 2])][0];
        }
        self.written += fits;
    }
}
