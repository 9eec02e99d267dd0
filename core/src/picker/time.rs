//! The time of a run, as a sum of works times what each takes.

use super::query::Set;

/// The works that a run's time is made of.
#[derive(Clone, Copy, Debug, PartialEq, Eq)]
pub enum Part {
    /// A vertex that a scan tests.
    Vertex,
    /// A source that fits and is passed over, since its list has no entry of the scanned label.
    Passed,
    /// A row whose new vertices are computed; a scan has one for each source that fits and is not passed over.
    Row,
    /// A descriptor of such a row, whose portion is found.
    Descriptor,
    /// An entry of the only portion.
    Entry,
    /// An entry of the shortest of several portions.
    Walk,
    /// For each such entry the logarithm of 1 + the next portion's length / (8 × the shortest's).
    Seek,
    /// For each vertex that a further portion is searched for, the logarithm of 1 + that portion's length.
    Test,
    /// A row whose new vertices are gathered in bit sets, since a portion has several labels.
    Sets,
    /// An entry that is marked in such a set.
    Mark,
    /// A vertex that comes out of an intersection and fits.
    Found,
    /// A row whose new vertices are those of the row before.
    Cached,
    /// A vertex of the set kept for such a row, which is tested anew.
    Kept,
    /// A word of an operator's result.
    Word,
    /// A row of an extend whose new vertex stands in its first or second column.
    Early,
    /// A build row of a join.
    Build,
    /// A probe row.
    Probe,
    /// A row that comes out of a join.
    Joined,
    /// A word of the match list.
    List,
}

/// How many parts there are.
pub const PARTS: usize = 19;

/// Every part, in the order of a `Work`'s numbers.
pub const ALL: [Part; PARTS] = [
    Part::Vertex,
    Part::Passed,
    Part::Row,
    Part::Descriptor,
    Part::Entry,
    Part::Walk,
    Part::Seek,
    Part::Test,
    Part::Sets,
    Part::Mark,
    Part::Found,
    Part::Cached,
    Part::Kept,
    Part::Word,
    Part::Early,
    Part::Build,
    Part::Probe,
    Part::Joined,
    Part::List,
];

/// How much there is of each part.
#[derive(Clone, Copy, Debug, Default, PartialEq)]
pub struct Work(pub [f64; PARTS]);

impl Work {
    pub fn put(&mut self, part: Part, amount: f64) {
        self.0[part as usize] += amount;
    }

    /// Adds another work so many times.
    pub fn add(&mut self, other: &Work, times: f64) {
        for (mine, its) in self.0.iter_mut().zip(&other.0) {
            *mine += times * its;
        }
    }

    /// Its time in nanoseconds.
    pub fn time(&self) -> f64 {
        self.0.iter().zip(&NANOSECONDS).map(|(amount, each)| amount * each).sum()
    }
}

/// Whether the new vertex of an extend stands in the first or second column of its rows.
pub fn is_early(set: Set, v: usize) -> bool {
    (set & ((1 << v) - 1)).count_ones() < 2
}

/// The time of so much of one part.
pub fn time_of(part: Part, amount: f64) -> f64 {
    amount * NANOSECONDS[part as usize]
}

include!("coefficients.rs");
