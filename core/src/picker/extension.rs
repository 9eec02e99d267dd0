//! The new vertices of one row: what an extend, or a scan from a source, finds for it, and the work that
//! takes.

use super::numbers::{log2, Random};
use super::query::{Descriptor, Edge, Filter, Query, Set, MAX_VERTICES};
use super::store::{is_first, leads_to, neighbour, several_labels, Store, SPAN};
use super::time::{Part, Work};

/// A data vertex for each query vertex that is covered; the others are anything.
pub type Row = [u32; MAX_VERTICES];

/// A single portion of several labels with so many entries is put in order without bit sets.
const FEW: usize = 8;
/// An entry of it takes as long as so many.
const IN_ORDER: f64 = 3.0;

/// An extend of rows over a set by a vertex.
pub struct Extending<'q> {
    filter: Filter,
    pub descriptors: Vec<Descriptor>,
    /// The covered vertices; and those of them that pairs ask to be above the new one, and below it.
    covered: Vec<usize>,
    above: Vec<usize>,
    below: Vec<usize>,
    /// The data vertices that fit the new one, where they are known, each as label × 65,536 + number.
    fitting: &'q [u32],
}

/// The new vertices of a row that were looked at.
#[derive(Clone, Copy, Debug)]
pub struct Looked {
    /// How many vertices each of those found stands for.
    pub scale: f64,
    /// How many there are about before those are struck that the row has or its pairs forbid.
    pub set: f64,
    /// How many entries or vertices were looked at.
    pub tries: usize,
}

/// The portions of a row: the shortest, the one that is searched next, and whether one has several labels.
/// Their place is kept from row to row.
#[derive(Default)]
pub struct Portions<'s> {
    all: Vec<&'s [u32]>,
    one: usize,
    two: usize,
    several: bool,
}

fn log2_of_one_more(number: usize) -> f64 {
    log2(1 + number as u64)
}

impl<'q> Extending<'q> {
    pub fn new(query: &'q Query, set: Set, vertex: usize) -> Extending<'q> {
        let covered = |u: &usize| set >> u & 1 == 1;
        let pairs = |new: fn(&(usize, usize)) -> usize, other: fn(&(usize, usize)) -> usize| {
            query.pairs.iter().filter(move |pair| new(pair) == vertex).map(other).filter(covered).collect()
        };
        Extending {
            filter: query.filters[vertex],
            descriptors: query.descriptors(set, vertex),
            covered: (0..query.vertices()).filter(covered).collect(),
            above: pairs(|pair| pair.0, |pair| pair.1),
            below: pairs(|pair| pair.1, |pair| pair.0),
            fitting: &[],
        }
    }

    /// From here on the vertices that fit are looked up in a portion that is longer than they are.
    pub fn know_fitting(&mut self, fitting: &'q [u32]) {
        self.fitting = fitting;
    }

    /// From here on no vertex is struck because the row has it or its pairs forbid it.
    pub fn strike_nothing(&mut self) {
        self.covered.clear();
        self.above.clear();
        self.below.clear();
    }

    /// Puts the new vertices of a row behind `found`. Of the shortest portion, or of the vertices that fit,
    /// at most `most` are looked at, evenly; the work is that of the whole row.
    pub fn look<'s>(
        &self,
        store: &Store<'s>,
        row: &Row,
        most: usize,
        random: &mut Random,
        portions: &mut Portions<'s>,
        found: &mut Vec<u32>,
        work: &mut Work,
    ) -> Looked {
        self.find_portions(store, row, portions);
        let short = portions.all[portions.one];
        let len = short.len();
        if len > most && self.fitting.len() < len && !self.fitting.is_empty() && self.descriptors.len() <= 2 {
            return self.look_up(portions, row, most, random, found, work);
        }
        let scale = if len > most { len as f64 / most as f64 } else { 1.0 };
        let offset = if len > most { random.unit() } else { 0.0 };
        let (mut kept, mut tested) = (0, 0);
        for i in 0..len.min(most) {
            let entry = short[(((i as f64 + offset) * scale) as usize).min(len - 1)];
            let x = neighbour(entry);
            if portions.several && !is_first(short, entry) {
                continue;
            }
            if self.descriptors.len() > 1 {
                if !leads_to(portions.all[portions.two], x) {
                    continue;
                }
                tested += 1;
                if !self.in_others(portions, x) {
                    continue;
                }
            }
            if !store.fits(&self.filter, x) {
                continue;
            }
            kept += 1;
            if self.permits(row, x) {
                found.push(x);
            }
        }
        let set = scale * f64::from(kept);
        self.put_work(portions, scale * f64::from(tested), work);
        work.put(Part::Found, set);
        Looked { scale, set, tries: len.min(most) }
    }

    /// The same where fewer vertices fit than the shortest portion has entries: a rare label is seldom come
    /// upon in a long list.
    fn look_up(
        &self,
        portions: &Portions,
        row: &Row,
        most: usize,
        random: &mut Random,
        found: &mut Vec<u32>,
        work: &mut Work,
    ) -> Looked {
        let len = self.fitting.len();
        let scale = if len > most { len as f64 / most as f64 } else { 1.0 };
        let offset = if len > most { random.unit() } else { 0.0 };
        let mut kept = 0;
        for i in 0..len.min(most) {
            let x = neighbour(self.fitting[(((i as f64 + offset) * scale) as usize).min(len - 1)]);
            if portions.all.iter().all(|portion| leads_to(portion, x)) {
                kept += 1;
                if self.permits(row, x) {
                    found.push(x);
                }
            }
        }
        let set = scale * f64::from(kept);
        self.put_work(portions, 0.0, work);
        work.put(Part::Found, set);
        Looked { scale, set, tries: len.min(most) }
    }

    /// Adds the work of finding a row's new vertices so many times, without those that come out.
    pub fn put_work_of<'s>(
        &self,
        store: &Store<'s>,
        row: &Row,
        portions: &mut Portions<'s>,
        times: f64,
        work: &mut Work,
    ) {
        self.find_portions(store, row, portions);
        let mut own = Work::default();
        self.put_work(portions, 0.0, &mut own);
        work.add(&own, times);
    }

    fn find_portions<'s>(&self, store: &Store<'s>, row: &Row, portions: &mut Portions<'s>) {
        let Portions { all, one, two, several } = portions;
        all.clear();
        (*one, *two, *several) = (0, 0, false);
        for (j, descriptor) in self.descriptors.iter().enumerate() {
            let portion = store.portion(descriptor.direction, row[descriptor.vertex], descriptor.label);
            *several |= descriptor.label == 0 && several_labels(portion);
            all.push(portion);
            if portion.len() < all[*one].len() {
                *one = j;
            }
        }
        if all.len() > 1 {
            // Searched next is the shortest of those of another vertex, and where there is none, of the others.
            let others = (0..all.len()).filter(|j| j != one);
            let same = |j: usize| self.descriptors[j].vertex == self.descriptors[*one].vertex;
            *two = others.min_by_key(|&j| (same(j), all[j].len())).unwrap_or(*one);
        }
    }

    /// Whether the portions besides the first two lead to a vertex.
    fn in_others(&self, portions: &Portions, x: u32) -> bool {
        (0..self.descriptors.len())
            .all(|j| j == portions.one || j == portions.two || leads_to(portions.all[j], x))
    }

    /// Whether the row has a vertex not yet, and its pairs allow it.
    pub fn permits(&self, row: &Row, x: u32) -> bool {
        self.covered.iter().all(|&u| row[u] != x)
            && self.above.iter().all(|&u| x < row[u])
            && self.below.iter().all(|&u| x > row[u])
    }

    /// The work of a row, of which so many vertices are in the first two portions.
    fn put_work(&self, portions: &Portions, tested: f64, work: &mut Work) {
        let count = self.descriptors.len();
        let len = portions.all[portions.one].len();
        work.put(Part::Row, 1.0);
        work.put(Part::Descriptor, count as f64);
        if portions.several && (count > 1 || len > FEW) {
            self.put_sets(portions, work);
        } else if count == 1 {
            let each = if portions.several { IN_ORDER } else { 1.0 };
            work.put(Part::Entry, each * len as f64);
        } else {
            work.put(Part::Walk, len as f64);
            if len > 0 {
                let next = portions.all[portions.two].len();
                let steps = log2((8 * len + next) as u64) - log2(8 * len as u64);
                work.put(Part::Seek, len as f64 * steps);
            }
            let further = (0..count).filter(|&j| j != portions.one && j != portions.two);
            let steps: f64 = further.map(|j| log2_of_one_more(portions.all[j].len())).sum();
            work.put(Part::Test, tested * steps);
        }
    }

    /// The work of a row by bit sets: a portion is marked, or where it is far longer than the shortest,
    /// searched.
    fn put_sets(&self, portions: &Portions, work: &mut Work) {
        let len = portions.all[portions.one].len();
        work.put(Part::Sets, 1.0);
        work.put(Part::Mark, len as f64);
        for (j, portion) in portions.all.iter().enumerate() {
            if j == portions.one {
                continue;
            }
            let labels = match (portion.first(), portion.last()) {
                (Some(first), Some(last)) => (last / SPAN - first / SPAN + 1) as usize,
                _ => 1,
            };
            if portion.len() / (32 * labels) < len || portion.is_empty() {
                work.put(Part::Mark, portion.len() as f64);
            } else {
                work.put(Part::Test, len as f64 * log2_of_one_more(portion.len()));
            }
        }
    }
}

/// Whether the ends of a scanned edge are a row: they fit, differ, their pairs allow them, and the other
/// edges between them are there. Of the labels between them that a query edge of label 0 may mean, the
/// given one must be the first.
pub fn is_scan_row(query: &Query, store: &Store, edge: &Edge, row: &Row, label: u32) -> bool {
    let (a, b) = (edge.from, edge.to);
    let (x, y) = (row[a], row[b]);
    if x == y || !store.fits(&query.filters[a], x) || !store.fits(&query.filters[b], y) {
        return false;
    }
    let ends = edge.ends();
    let ordered = |&(low, high): &(usize, usize)| (1 << low | 1 << high) != ends || row[low] < row[high];
    let present = |other: &Edge| {
        use super::store::Direction::{Backward, Forward};
        let direction = if other.from == a { Forward } else { Backward };
        other.ends() != ends || leads_to(store.portion(direction, x, other.label), y)
    };
    let first =
        edge.label != 0 || is_first(store.list(super::store::Direction::Forward, x), label * SPAN + y);
    first && query.pairs.iter().all(ordered) && query.edges.iter().filter(|other| *other != edge).all(present)
}
