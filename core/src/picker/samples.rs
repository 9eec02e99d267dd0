//! Estimates by samples: how many rows each set of covered query vertices has, some of those rows, and what
//! an extend of them takes.

use super::ends::Ends;
use super::extension::{Extending, Portions, Row};
use super::numbers::Random;
use super::query::{Descriptor, Query, Set, MAX_VERTICES};
use super::scans::Scan;
use super::statistics::Statistics;
use super::store::{Direction, Store};
use super::time::{Part, Work};

/// Entries of the shortest portion that are looked at for all sample rows together, and for each within these
/// bounds: many rows with a few each say more than a few rows with many, since lists differ most.
const LOOKS: usize = 512;
const LEAST_LOOKS: usize = 8;
const MOST_LOOKS: usize = 64;
/// Where nothing was found in so many tries, this over the tries stands for the share.
pub const UNSEEN: f64 = 0.3;
const NO_EXTENSION: u16 = u16::MAX;
/// What sampling takes, in nanoseconds: a descriptor of a row, and an entry that is looked at for it.
const ROW_EFFORT: f64 = 90.0;
const ENTRY_EFFORT: f64 = 25.0;

/// The rows of a set of covered vertices: about how many, and some of them, each as likely.
#[derive(Clone, Debug, Default)]
pub struct Sample {
    pub rows: f64,
    pub sample: Vec<Row>,
    /// The number of rows is exact; and the sample is all of them.
    pub exact: bool,
    pub whole: bool,
    /// How many rows that were seen one by one the estimate rests on; and together with those of other ways
    /// to the same set.
    pub support: f64,
    pub weight: f64,
    /// Of a scan: for each row how many edges of the scanned label its ends have, lower query vertex first; of
    /// several edges between the ends, of the one that was scanned last.
    pub degrees: Vec<[f64; 2]>,
}

impl Sample {
    /// Takes in what another way to the same set gave: the mean of the estimates by what they rest on, and
    /// its sample where that rests on twice as much. Answers whether the sample was taken.
    pub fn merge(&mut self, other: Sample) -> bool {
        if self.exact {
            return false;
        }
        if other.exact {
            *self = other;
            return true;
        }
        let (mine, its) = (self.weight.max(0.01), other.support.max(0.01));
        let rows = (self.rows * mine + other.rows * its) / (mine + its);
        let better = other.support > 2.0 * self.support;
        if better {
            *self = other;
        }
        self.rows = rows;
        self.weight = mine + its;
        better
    }
}

/// An extend of a set by a vertex: means over the rows.
#[derive(Clone, Copy, Debug)]
pub struct Extension {
    /// New rows of a row.
    pub rows: f64,
    /// Time of a row that is computed, without that of its output.
    pub time: f64,
    /// The share of rows that have a new one.
    pub hit: f64,
    /// The set of new vertices before those are struck that the row has or its pairs forbid: its length,
    /// and the longest seen.
    pub set: f64,
    pub longest: f64,
    /// Time and hits as means over the different vertices of an end, where the set is two ends: of its
    /// lower and its higher vertex.
    pub by_end: [(f64, f64); 2],
}

/// Estimates for one query.
pub struct Samples<'a> {
    pub query: &'a Query,
    pub(super) store: Store<'a>,
    pub(super) statistics: &'a Statistics,
    /// Rows of a sample at most.
    pub(super) size: usize,
    pub(super) random: Random,
    /// For each query vertex the data vertices that fit, each as label × 65,536 + number.
    pub(super) fitting: Vec<&'a [u32]>,
    pub(super) samples: Vec<Option<Sample>>,
    extensions: Vec<Extension>,
    index: Vec<u16>,
    pub(super) scans: Vec<Option<Scan>>,
    /// The time that sampling took, by a count of what it read.
    pub effort: f64,
}

impl<'a> Samples<'a> {
    pub fn new(store: Store<'a>, statistics: &'a Statistics, query: &'a Query, size: usize) -> Samples<'a> {
        let sets = 1 << query.vertices();
        Samples {
            query,
            store,
            statistics,
            size,
            random: Random::new(),
            fitting: query.filters.iter().map(|filter| statistics.fitting(&store, filter)).collect(),
            samples: vec![None; sets],
            extensions: Vec::with_capacity(64),
            index: vec![NO_EXTENSION; sets * MAX_VERTICES],
            scans: vec![None; query.edges.len()],
            effort: 0.0,
        }
    }

    /// How many data vertices fit a query vertex.
    pub fn fitting(&self, v: usize) -> f64 {
        self.fitting[v].len() as f64
    }

    /// Scratch words that are enough for every ordering, by the sums of request 10: a set of new vertices
    /// is within those that fit.
    pub fn fitting_words(&self) -> u64 {
        let n = self.query.vertices() as u64;
        n * (n + 1) / 2 + self.fitting.iter().map(|fitting| fitting.len() as u64).sum::<u64>()
    }

    /// The estimated rows of a set that was reached.
    pub fn rows(&self, set: Set) -> f64 {
        self.samples[set as usize].as_ref().map_or(0.0, |sample| sample.rows)
    }

    /// Whether a set was reached.
    pub fn reached(&self, set: Set) -> bool {
        self.samples[set as usize].is_some()
    }

    /// Whether a set has no sample row, although it may have rows.
    pub fn unseen(&self, set: Set) -> bool {
        self.samples[set as usize].as_ref().map_or(true, |sample| sample.sample.is_empty() && !sample.whole)
    }

    /// The extension of a set by a vertex, where it was made.
    pub fn extension(&self, set: Set, v: usize) -> Option<&Extension> {
        self.extensions.get(usize::from(self.index[set as usize * MAX_VERTICES + v]))
    }

    /// Makes the extension of a reached set by a vertex, and with it the rows of the larger set.
    pub fn extend(&mut self, set: Set, v: usize) {
        if self.extension(set, v).is_some() {
            return;
        }
        let sample = self.samples[set as usize].take().unwrap_or_default();
        let looks = (LOOKS / sample.sample.len().max(1)).max(LEAST_LOOKS).min(MOST_LOOKS);
        let (extension, larger) = self.extended(&sample, set, v, looks);
        self.samples[set as usize] = Some(sample);
        let whole = (set | 1 << v) as usize;
        match &mut self.samples[whole] {
            Some(known) => {
                if known.merge(larger) {
                    // What the poorer sample said of extends is made anew where it is asked for again.
                    self.index[whole * MAX_VERTICES..][..MAX_VERTICES].fill(NO_EXTENSION);
                }
            }
            none => *none = Some(larger),
        }
        self.index[set as usize * MAX_VERTICES + v] = self.extensions.len() as u16;
        self.extensions.push(extension);
    }

    /// The extension of a sample by a vertex, for each row of which at most so many entries are looked at.
    pub fn extended(&mut self, operand: &Sample, set: Set, v: usize, most: usize) -> (Extension, Sample) {
        if operand.sample.is_empty() {
            let extension = if operand.whole { Extension::of_nothing() } else { self.average(set, v) };
            let rows = operand.rows * extension.rows;
            let (exact, whole) = (operand.whole, operand.whole);
            return (extension, Sample { rows, exact, whole, ..Sample::default() });
        }
        let mut extending = Extending::new(self.query, set, v);
        if !self.query.filters[v].any() {
            extending.know_fitting(self.fitting[v]);
        }
        let mut ends = Ends::default();
        let (mut found, mut parts) =
            (Vec::with_capacity(4 * self.size), Vec::with_capacity(operand.sample.len()));
        let (mut work, mut portions) = (Work::default(), Portions::default());
        let (mut total, mut hits, mut sets, mut longest, mut tries) = (0.0, 0.0, 0.0, 0.0f64, 0);
        let mut all = true;
        for (i, row) in operand.sample.iter().enumerate() {
            let from = found.len();
            let looked = extending.look(
                &self.store,
                row,
                most,
                &mut self.random,
                &mut portions,
                &mut found,
                &mut work,
            );
            let hit = if found.len() > from { 1.0 } else { 0.0 };
            total += looked.scale * (found.len() - from) as f64;
            parts.push((from, found.len(), total));
            all &= looked.scale == 1.0;
            sets += looked.set;
            longest = longest.max(looked.set);
            hits += hit;
            tries += looked.tries;
            if let Some(degrees) = operand.degrees.get(i) {
                ends.put(degrees, &work, hit);
            }
        }
        let descriptors = extending.descriptors.len() as f64;
        self.effort += descriptors * (ROW_EFFORT * operand.sample.len() as f64 + ENTRY_EFFORT * tries as f64);
        let count = operand.sample.len() as f64;
        let rows = if found.is_empty() && !(operand.whole && all) { UNSEEN / count } else { total / count };
        let hit = if hits == 0.0 { rows.min(1.0) } else { hits / count };
        let time = work.time() / count;
        let extension =
            Extension { rows, time, hit, set: sets / count, longest, by_end: ends.means(time, hit) };
        let exact = operand.whole && all;
        let whole = exact && found.len() <= self.size;
        let support = operand.support.min(hits);
        let sample = self.taken(operand, v, &found, &parts, all);
        let rows = operand.rows * rows;
        (extension, Sample { rows, sample, exact, whole, support, weight: support, degrees: Vec::new() })
    }

    /// Sample rows evenly over the found ones; `parts` has for each row where its vertices begin and end,
    /// and how many rows there are up to its last.
    fn taken(
        &mut self,
        operand: &Sample,
        v: usize,
        found: &[u32],
        parts: &[(usize, usize, f64)],
        all: bool,
    ) -> Vec<Row> {
        let mut rows = Vec::with_capacity(found.len().min(self.size));
        let mut put = |i: usize, x: u32| {
            let mut row = operand.sample[i];
            row[v] = x;
            rows.push(row);
        };
        if all && found.len() <= self.size {
            for (i, &(from, to, _)) in parts.iter().enumerate() {
                found[from..to].iter().for_each(|&x| put(i, x));
            }
            return rows;
        }
        if found.is_empty() {
            return rows;
        }
        let total = parts[parts.len() - 1].2;
        let gap = total / self.size as f64;
        let (mut at, mut i, mut left) = (gap * self.random.unit(), 0, self.size);
        while left > 0 && i < parts.len() {
            let (from, to, end) = parts[i];
            if at < end {
                put(i, found[from + self.random.below(to - from)]);
                at += gap;
                left -= 1;
            } else {
                i += 1;
            }
        }
        rows
    }

    /// An extension by averages, where no row of the set was seen.
    fn average(&self, set: Set, v: usize) -> Extension {
        let descriptors = self.query.descriptors(set, v);
        let filters = &self.query.filters;
        let edges = |d: &Descriptor| self.statistics.edges_at(d.direction, d.label, filters[d.vertex].label);
        let lengths: Vec<f64> = descriptors
            .iter()
            .map(|d| edges(d) / self.statistics.labelled(filters[d.vertex].label).max(1.0))
            .collect();
        let one = (0..lengths.len()).fold(0, |one, j| if lengths[j] < lengths[one] { j } else { one });
        let shortest = &descriptors[one];
        let (near, new) = (filters[shortest.vertex].label, filters[v].label);
        let fitting = match shortest.direction {
            Direction::Forward => self.statistics.edges_between(shortest.label, near, new),
            Direction::Backward => self.statistics.edges_between(shortest.label, new, near),
        };
        let days = self.fitting(v) / self.statistics.labelled(new).max(1.0);
        let mut rows = days * fitting / self.statistics.labelled(near).max(1.0);
        for (j, length) in lengths.iter().enumerate() {
            if j != one {
                rows *= (3.0 * length / self.store.vertices().max(1) as f64).max(0.002).min(1.0);
            }
        }
        let mut work = Work::default();
        work.put(Part::Row, 1.0);
        work.put(Part::Descriptor, lengths.len() as f64);
        work.put(if lengths.len() == 1 { Part::Entry } else { Part::Walk }, lengths[one]);
        work.put(Part::Found, rows);
        let (time, hit) = (work.time(), rows.min(1.0));
        Extension { rows, time, hit, set: rows, longest: rows, by_end: [(time, hit); 2] }
    }
}

impl Extension {
    /// Of a set that has no row.
    fn of_nothing() -> Extension {
        Extension { rows: 0.0, time: 0.0, hit: 0.0, set: 0.0, longest: 0.0, by_end: [(0.0, 0.0); 2] }
    }
}
