//! The model of the cache: an extend computes the new vertices of a row only where a vertex that it uses
//! differs from the row before.
//!
//! Rows stand in the order in which their vertices were covered, so rows with equal beginnings stand
//! together. The covered sets of a plan, one after the other, are the prefixes; of each it is estimated how
//! many different beginnings still have a row.

use super::numbers::at_least_once;
use super::query::{Set, MAX_VERTICES};

/// A covered set, and how many of its rows are the beginning of a row.
#[derive(Clone, Copy, Debug, Default)]
pub struct Prefix {
    pub set: Set,
    pub distinct: f64,
}

/// The prefixes of a plan's rows, from the scan's source on.
#[derive(Clone, Copy, Debug, Default)]
pub struct Prefixes {
    all: [Prefix; MAX_VERTICES],
    len: usize,
}

impl Prefixes {
    /// After a scan from a source: so many sources that have a row, and so many rows.
    pub fn of_scan(source: Set, sources: f64, set: Set, rows: f64) -> Prefixes {
        let mut prefixes = Prefixes::default();
        prefixes.push(Prefix { set: source, distinct: sources.min(rows) });
        prefixes.push(Prefix { set, distinct: rows });
        prefixes
    }

    pub fn push(&mut self, prefix: Prefix) {
        self.all[self.len] = prefix;
        self.len += 1;
    }

    pub fn all(&self) -> &[Prefix] {
        &self.all[..self.len]
    }

    /// The set of the scan with which the rows began.
    pub fn scanned(&self) -> Set {
        self.all[1].set
    }

    /// The first prefix that holds the used vertices.
    pub fn holding(&self, used: Set) -> usize {
        self.all().iter().position(|prefix| used & !prefix.set == 0).unwrap_or(self.len - 1)
    }

    /// After an operator that gives a share `hit` of the rows a result, and `own(i)` of the beginnings of
    /// prefix i where that is known from the prefix itself.
    pub fn surviving(&self, rows: f64, hit: f64, own: impl Fn(usize) -> Option<f64>) -> Prefixes {
        let mut after = *self;
        for i in 0..after.len {
            let distinct = after.all[i].distinct;
            let share = own(i).unwrap_or_else(|| at_least_once(hit, rows / distinct.max(1e-9)));
            after.all[i].distinct = distinct * share;
        }
        after
    }
}
