//! Packed fields, most significant bit first, with zero bits to the end of the last byte.

/// Packs (number, width) fields.
pub fn pack(fields: impl IntoIterator<Item = (u64, usize)>) -> Vec<u8> {
    let mut bytes = Vec::new();
    let mut bits = 0;
    for (number, width) in fields {
        for i in (0..width).rev() {
            if bits % 8 == 0 {
                bytes.push(0);
            }
            let last = bytes.len() - 1;
            bytes[last] |= ((number >> i & 1) as u8) << (7 - bits % 8);
            bits += 1;
        }
    }
    bytes
}

/// Reads fields one after the other.
pub struct Reader<'f> {
    file: &'f [u8],
    at: usize,
}

impl<'f> Reader<'f> {
    pub fn new(file: &'f [u8]) -> Self {
        Reader { file, at: 0 }
    }

    fn left(&self) -> usize {
        8 * self.file.len() - self.at
    }

    /// The next field, if its bits are there.
    pub fn field(&mut self, width: usize) -> Option<u64> {
        if self.left() < width {
            return None;
        }
        let mut number = 0;
        for _ in 0..width {
            number = 2 * number + u64::from(self.file[self.at / 8] >> (7 - self.at % 8) & 1);
            self.at += 1;
        }
        Some(number)
    }

    /// Whether the file is at its end: less than a byte is left, and its bits are 0.
    pub fn ends(&mut self) -> bool {
        self.left() < 8 && self.field(self.left()) == Some(0)
    }
}
