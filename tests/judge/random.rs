//! Numbers from a seed, and a loop over seeds that names the one that failed.
use std::cell::Cell;

/// It is shared freely: each call moves it on.
pub struct Random(Cell<u64>);

impl Random {
    pub fn new(seed: u64) -> Random {
        let r = Random(Cell::new((seed + 1).wrapping_mul(0x9E37_79B9_7F4A_7C15)));
        r.next();
        r
    }

    pub fn next(&self) -> u64 {
        let mut x = self.0.get();
        x ^= x << 13;
        x ^= x >> 7;
        x ^= x << 17;
        self.0.set(x);
        x.wrapping_mul(0x2545_F491_4F6C_DD1D) >> 16
    }

    /// A number below `end`, which is not 0.
    pub fn below(&self, end: usize) -> usize {
        (self.next() % end as u64) as usize
    }

    /// True `times` times out of `of`.
    pub fn chance(&self, times: usize, of: usize) -> bool {
        self.below(of) < times
    }

    pub fn words(&self, count: usize) -> Vec<u32> {
        (0..count).map(|_| self.next() as u32).collect()
    }

    /// One of a few days, the first and the last ones among them.
    pub fn day(&self) -> u16 {
        [0, 1, 2, 3, 9_000, 65_534, 65_535][self.below(7)]
    }

    /// Cuts a file, adds a byte, flips a bit or sets one of its first bytes.
    pub fn damage(&self, file: &mut Vec<u8>) {
        match self.below(6) {
            0 => file.truncate(self.below(file.len() + 1)),
            1 => file.push(self.below(3) as u8),
            _ if file.is_empty() => (),
            2 => {
                let at = self.below(file.len().min(3));
                file[at] = self.next() as u8;
            }
            _ => {
                let at = self.below(file.len());
                file[at] ^= 1 << self.below(8);
            }
        }
    }
}

/// Says which seed a test was at, where it panics.
struct At(u64);

impl Drop for At {
    fn drop(&mut self) {
        if std::thread::panicking() {
            eprintln!("at seed {}", self.0);
        }
    }
}

/// A test of many seeds, from the first on.
pub fn each(seeds: std::ops::Range<u64>, mut test: impl FnMut(&Random)) {
    for seed in seeds {
        let _at = At(seed);
        test(&Random::new(seed));
    }
}
