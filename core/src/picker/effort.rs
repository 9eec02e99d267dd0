//! How long a pick may take, and with it how large its samples are: by a count of what sampling reads, in
//! nanoseconds, and never by a clock.

/// Sample rows to begin with, and how many at most.
const FIRST_SIZE: usize = 64;
const MOST_SIZE: usize = 2_048;
/// All sampling together may take this share of the plan's time,
const SHARE: f64 = 0.009;
/// or a larger share, up to so much,
const SHORT_SHARE: f64 = 0.15;
const SHORT: f64 = 400_000.0;
/// or in any case so much,
const LEAST: f64 = 150_000.0;
/// or so much while a part of the plan has no sample row at all and a sample has fewer rows than this.
const UNSEEN: f64 = 800_000.0;
pub const UNSEEN_SIZE: usize = 512;
/// A sample is made larger by no less than this, and by no more at a time.
const LEAST_GROWTH: f64 = 2.0;
const MOST_GROWTH: f64 = 4.0;
/// What a search may take until it has gone through all that is worth it, and what it takes besides
/// sampling.
const SEARCH: f64 = 900_000.0;
const BASE: f64 = 5_000.0;

/// The rounds of a pick, each with a larger sample than the one before.
pub struct Effort {
    /// Rows of a sample of this round.
    pub size: usize,
    /// What may be taken in any case.
    least: f64,
    spent: f64,
}

/// What sampling may take in a round.
#[derive(Clone, Copy)]
pub struct Limits {
    least: f64,
    spent: f64,
}

impl Limits {
    /// Of a search for which no effort is too much.
    pub const NONE: Limits = Limits { least: f64::MAX, spent: 0.0 };

    /// What it may take where the best plan so far takes a time: the better that is, the less.
    pub fn at(&self, best: f64) -> f64 {
        allowed(best, self.least) - self.spent
    }
}

/// What all sampling for a plan of a time may take.
fn allowed(time: f64, least: f64) -> f64 {
    (SHARE * time).max((SHORT_SHARE * time).min(SHORT)).max(least)
}

impl Effort {
    pub fn first_round() -> Effort {
        Effort { size: FIRST_SIZE, least: SEARCH, spent: 0.0 }
    }

    pub fn limits(&self) -> Limits {
        Limits { least: self.least, spent: self.spent }
    }

    /// Goes on to the next round, if it may be taken after one that took so much and found a plan of a
    /// time, of which a part may be unseen; answers whether it did.
    pub fn next_round(&mut self, took: f64, time: f64, unseen: bool) -> bool {
        let took = took + BASE;
        self.spent += took;
        self.least = if unseen && self.size < UNSEEN_SIZE { UNSEEN } else { LEAST };
        let growth = ((allowed(time, self.least) - self.spent) / took).min(MOST_GROWTH);
        if self.size == MOST_SIZE || growth < LEAST_GROWTH {
            return false;
        }
        let only_unseen = allowed(time, LEAST) < self.least;
        let most = if only_unseen { UNSEEN_SIZE } else { MOST_SIZE };
        self.size = ((growth * self.size as f64) as usize).min(most);
        true
    }
}

#[cfg(test)]
mod tests {
    use super::*;

    #[test]
    fn a_short_plan_is_not_picked_at_length() {
        let mut effort = Effort::first_round();
        assert!(!effort.next_round(80_000.0, 100_000.0, false));
        let mut effort = Effort::first_round();
        assert!(effort.next_round(80_000.0, 100_000.0, true));
        assert!(effort.size <= UNSEEN_SIZE);
    }

    #[test]
    fn a_search_that_finds_a_better_plan_may_take_less() {
        let mut effort = Effort::first_round();
        assert!(effort.next_round(900_000.0, 4e9, false));
        assert!(effort.limits().at(1e8) < effort.limits().at(4e9) / 10.0);
    }

    #[test]
    fn a_long_plan_has_the_largest_sample() {
        let mut effort = Effort::first_round();
        while effort.next_round(1_000.0 * effort.size as f64, 1e10, false) {}
        assert_eq!(effort.size, MOST_SIZE);
    }
}
