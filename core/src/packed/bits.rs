//! Bit-packed fields, most significant bit first, with no gaps; zero bits fill the last byte.

/// Bytes under construction.
#[derive(Default)]
pub struct BitWriter {
    bytes: Vec<u8>,
    /// Bits that fill no byte yet: the low `count` bits.
    held: u64,
    count: u32,
}

impl BitWriter {
    /// A writer with room for so many bytes.
    pub fn with_capacity(bytes: usize) -> Self {
        BitWriter { bytes: Vec::with_capacity(bytes), ..BitWriter::default() }
    }

    /// Appends the `width` low bits of `value`, which has no others.
    pub fn put(&mut self, value: u32, width: u32) {
        debug_assert!(u64::from(value) < 1 << width, "{value} in {width} bits");
        self.held = self.held << width | u64::from(value);
        self.count += width;
        while self.count >= 8 {
            self.count -= 8;
            self.bytes.push((self.held >> self.count) as u8);
        }
        self.held &= (1 << self.count) - 1;
    }

    pub fn finish(mut self) -> Vec<u8> {
        if self.count > 0 {
            self.bytes.push((self.held << (8 - self.count)) as u8);
        }
        self.bytes
    }
}

/// Bytes being read, field by field.
pub struct BitReader<'a> {
    bytes: &'a [u8],
    at: usize,
}

impl<'a> BitReader<'a> {
    pub fn new(bytes: &'a [u8]) -> Self {
        BitReader { bytes, at: 0 }
    }

    fn left(&self) -> usize {
        self.bytes.len() * 8 - self.at
    }

    /// The next `width` bits, 32 at most, or nothing if fewer are left.
    pub fn take(&mut self, width: u32) -> Option<u32> {
        if self.left() < width as usize {
            return None;
        }
        let end = self.at + width as usize;
        let held = self.bytes[self.at / 8..(end + 7) / 8].iter().fold(0u64, |held, &byte| held << 8 | u64::from(byte));
        let below = (8 - end % 8) % 8;
        self.at = end;
        Some((held >> below & ((1 << width) - 1)) as u32)
    }

    /// A whole byte or more is left.
    pub fn is_long(&self) -> bool {
        self.left() >= 8
    }

    /// One of the bits left is set.
    pub fn has_fill_set(mut self) -> bool {
        (0..self.left()).any(|_| self.take(1) == Some(1))
    }
}

#[cfg(test)]
mod tests {
    use super::*;

    #[test]
    fn fields_cross_bytes() {
        let mut w = BitWriter::default();
        w.put(0b101, 3);
        w.put(0xabcde, 20);
        assert_eq!(w.finish(), [0b1011_0101, 0b0111_1001, 0b1011_1100]);
    }

    #[test]
    fn what_is_put_is_taken() {
        let fields = [(1, 1), (0, 3), (1_048_575, 20), (65_535, 16), (5, 5)];
        let mut w = BitWriter::default();
        for (value, width) in fields {
            w.put(value, width);
        }
        let bytes = w.finish();
        let mut r = BitReader::new(&bytes);
        for (value, width) in fields {
            assert_eq!(r.take(width), Some(value));
        }
        assert_eq!(r.take(4), None);
        assert!(!r.is_long());
        assert!(!r.has_fill_set());
    }

    #[test]
    fn fill_bits_are_seen() {
        let mut r = BitReader::new(&[0b1010_0100]);
        assert_eq!(r.take(3), Some(0b101));
        assert!(r.has_fill_set());
    }

    #[test]
    fn whole_words_of_32_bits() {
        let mut w = BitWriter::default();
        w.put(1, 1);
        w.put(u32::MAX, 32);
        w.put(0x1234_5678, 32);
        let bytes = w.finish();
        let mut r = BitReader::new(&bytes);
        assert_eq!(r.take(1), Some(1));
        assert_eq!(r.take(32), Some(u32::MAX));
        assert_eq!(r.take(32), Some(0x1234_5678));
    }
}
