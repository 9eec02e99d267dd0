//! Numbers that come out the same on every machine: sums, products and quotients, a logarithm by integers,
//! a fixed seed.

/// The logarithm to base 2 of a number above 0: exact at the powers of two, straight between them.
pub fn log2(x: u64) -> f64 {
    let whole = 63 - x.leading_zeros();
    let power = 1u64 << whole;
    f64::from(whole) + (x - power) as f64 / power as f64
}

/// The chance that an event of this chance comes at least once in so many tries: 1 − (1 − chance)^tries.
pub fn at_least_once(chance: f64, tries: f64) -> f64 {
    let tries = tries.max(1.0).min(1e9);
    let miss = (1.0 - chance).max(0.0);
    let mut left = tries as u64;
    let part = tries - left as f64;
    let (mut power, mut square) = (1.0, miss);
    while left > 0 {
        if left & 1 == 1 {
            power *= square;
        }
        square *= square;
        left >>= 1;
    }
    1.0 - power * (1.0 - part + part * miss)
}

/// Marsaglia's xorshift with a multiplier.
pub struct Random(u64);

impl Random {
    pub fn new() -> Random {
        Random(0x9E37_79B9_7F4A_7C15)
    }

    fn next(&mut self) -> u64 {
        self.0 ^= self.0 << 13;
        self.0 ^= self.0 >> 7;
        self.0 ^= self.0 << 17;
        self.0.wrapping_mul(0x2545_F491_4F6C_DD1D) >> 16
    }

    /// A number of 0 to `end` − 1, for an `end` above 0.
    pub fn below(&mut self, end: usize) -> usize {
        (self.next() % end as u64) as usize
    }

    /// A number of 0 to 1, without 1.
    pub fn unit(&mut self) -> f64 {
        (self.next() & 0xFFFF) as f64 / 65_536.0
    }
}

#[cfg(test)]
mod tests {
    use super::*;

    #[test]
    fn logarithms_are_exact_at_powers_and_ascend() {
        for k in 0..64 {
            assert_eq!(log2(1 << k), f64::from(k));
        }
        assert!((1..5_000).all(|x| log2(x) < log2(x + 1)));
        assert!((1..5_000).all(|x| (log2(x) - (x as f64).log2()).abs() < 0.09));
    }

    #[test]
    fn a_chance_in_many_tries() {
        assert_eq!(at_least_once(0.25, 1.0), 0.25);
        assert_eq!(at_least_once(0.5, 2.0), 0.75);
        assert_eq!(at_least_once(0.5, 1.5), 0.625);
        assert_eq!(at_least_once(1.0, 7.0), 1.0);
        assert_eq!(at_least_once(0.0, 1e12), 0.0);
    }
}
