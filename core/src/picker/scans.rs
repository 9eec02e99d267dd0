//! Scans: the rows of a query edge's ends, and what finding them takes.

use super::extension::{is_scan_row, Extending, Portions, Row};
use super::query::{Edge, MAX_VERTICES};
use super::samples::{Sample, Samples, UNSEEN};
use super::store::{neighbour, Direction, SPAN};
use super::time::{Part, Work};

/// Entries of the shortest portion that are looked at for a vertex that fits, where those that fit are few.
const MOST_ENTRIES: usize = 64;
/// Sample edges that are tried for each row of a sample, and how many where too few of them were rows.
const TRIES: f64 = 2.0;
const MANY_TRIES: f64 = 64.0;
/// What such a try takes, in nanoseconds.
const TRY_EFFORT: f64 = 40.0;

/// A scan: its time, and how many sources have a row.
#[derive(Clone, Copy, Debug)]
pub struct Scan {
    pub time: f64,
    pub sources: f64,
}

impl Samples<'_> {
    /// The scan of a query edge.
    pub fn scan(&mut self, i: usize) -> Scan {
        if let Some(scan) = self.scans[i] {
            return scan;
        }
        let edge = self.query.edges[i];
        let set = edge.ends();
        let mut sample = match self.samples[set as usize].take() {
            Some(sample) => sample,
            None => self.scan_sample(&edge),
        };
        sample.degrees = self.degrees(&edge, &sample.sample);
        self.samples[set as usize] = Some(sample);
        let scan = Scan { time: self.scan_work(&edge).time(), sources: self.sources(&edge) };
        self.scans[i] = Some(scan);
        scan
    }

    /// The rows of an edge's ends: from sample edges; where too few of those are rows, from vertices that fit the
    /// end which fewer fit as well; and where these have too few, from more sample edges.
    fn scan_sample(&mut self, edge: &Edge) -> Sample {
        let enough = |sample: &Sample, size: usize| sample.exact || 2.0 * sample.support >= size as f64;
        let mut sample = self.pool_sample(edge, TRIES);
        if enough(&sample, self.size) {
            return sample;
        }
        let (a, b) = (edge.from, edge.to);
        let (few, other) = if self.fitting[a].len() <= self.fitting[b].len() { (a, b) } else { (b, a) };
        sample.merge(self.vertex_sample(few, other));
        if !enough(&sample, self.size) {
            sample.merge(self.pool_sample(edge, MANY_TRIES));
        }
        sample
    }

    /// The rows of an edge's ends from vertices that fit one of them, all or evenly over all.
    fn vertex_sample(&mut self, few: usize, other: usize) -> Sample {
        let fitting = self.fitting[few];
        let count = fitting.len().min(2 * self.size);
        let row = |i: usize| {
            let mut row = [SPAN - 1; MAX_VERTICES];
            row[few] = neighbour(fitting[i * fitting.len() / count]);
            row
        };
        let (rows, support, whole) = (fitting.len() as f64, count as f64, count == fitting.len());
        let sample = (0..count).map(row).collect();
        let start =
            Sample { rows, sample, exact: true, whole, support, weight: support, degrees: Vec::new() };
        self.extended(&start, 1 << few, other, MOST_ENTRIES).1
    }

    /// Sample edges evenly over all edges whose labels fit, so many for each row of a sample, each tested.
    fn pool_sample(&mut self, edge: &Edge, tries: f64) -> Sample {
        let (source, target) = (self.query.filters[edge.from].label, self.query.filters[edge.to].label);
        let statistics = self.statistics;
        let (mut total, mut pooled, mut all) = (0.0, 0.0, true);
        for known in statistics.edge_labels(edge.label) {
            all &= known.whole;
            statistics.triples(known, source, target, &mut |triple| {
                total += f64::from(triple.count);
                pooled += f64::from(triple.pooled);
            });
        }
        let want = (tries * self.size as f64).min(pooled);
        let exact = all && total <= want;
        let gap = if exact { 1.0 } else { (total / want).max(1.0) };
        let mut at = if exact { 0.0 } else { gap * self.random.unit() };
        let (mut rows, mut begin, mut tried) = (Vec::with_capacity(want as usize + 1), 0.0, 0.0);
        for (label, known) in statistics.numbered_edge_labels(edge.label) {
            statistics.triples(known, source, target, &mut |triple| {
                let count = f64::from(triple.count);
                while at < begin + count {
                    let i = (((at - begin) / count * f64::from(triple.pooled)) as u32).min(triple.pooled - 1);
                    let ends = statistics.pool[(triple.pool + i) as usize];
                    let mut row = [SPAN - 1; MAX_VERTICES];
                    row[edge.from] = ends / SPAN;
                    row[edge.to] = ends % SPAN;
                    if is_scan_row(self.query, &self.store, edge, &row, label) {
                        rows.push(row);
                    }
                    tried += 1.0;
                    at += gap;
                }
                begin += count;
            });
        }
        self.effort += TRY_EFFORT * tried;
        let seen = if rows.is_empty() && !exact { UNSEEN } else { rows.len() as f64 };
        let estimate = if tried == 0.0 { 0.0 } else { total * seen / tried };
        let (whole, support) = (exact && rows.len() <= self.size, rows.len() as f64);
        let sample = thinned(rows, self.size);
        Sample { rows: estimate, sample, exact, whole, support, weight: support, degrees: Vec::new() }
    }

    /// The work of a scan: every vertex is tested, and from each source that fits the portions of all edges
    /// between the ends are intersected, unless its list lacks the label of the first of them.
    fn scan_work(&self, edge: &Edge) -> Work {
        let label = self.query.filters[edge.from].label;
        let fitting = self.fitting(edge.from);
        let share = fitting / self.statistics.labelled(label).max(1.0);
        let edges =
            |direction: Direction, edge: u32| share * self.statistics.edges_at(direction, edge, label);
        let entries = edges(Direction::Forward, edge.label);
        let extending = Extending::new(self.query, 1 << edge.from, edge.to);
        let descriptors = &extending.descriptors;
        let looked = fitting.min(edges(descriptors[0].direction, descriptors[0].label));
        let mut work = Work::default();
        if edge.label != 0 && descriptors.len() == 1 {
            work.put(Part::Entry, entries);
        } else {
            self.put_source_work(edge, &extending, entries, &mut work);
            if descriptors.iter().any(|descriptor| descriptor.label == 0) {
                work.put(Part::Sets, (looked - entries).max(0.0));
            }
        }
        work.put(Part::Vertex, self.store.vertices() as f64);
        work.put(Part::Passed, fitting - looked);
        work.put(Part::Row, looked);
        work.put(Part::Descriptor, looked * descriptors.len() as f64);
        let rows = self.rows(edge.ends());
        work.put(Part::Found, rows);
        work.put(Part::Word, 2.0 * rows);
        work
    }

    /// The work at the sources of so many entries, but for what is counted for each source that fits: that
    /// at the sources of the sample, each counted once however many of the entries are its.
    fn put_source_work(&self, edge: &Edge, extending: &Extending, entries: f64, work: &mut Work) {
        let sample = match &self.samples[edge.ends() as usize] {
            Some(sample) if !sample.sample.is_empty() => sample,
            _ => return work.put(Part::Walk, entries),
        };
        let each = entries / sample.sample.len() as f64;
        let before = *work;
        let mut portions = Portions::default();
        for (row, degrees) in sample.sample.iter().zip(&sample.degrees) {
            let degree = degrees[usize::from(edge.from > edge.to)];
            extending.put_work_of(&self.store, row, &mut portions, each / degree.max(1.0), work);
        }
        for part in [Part::Row, Part::Descriptor] {
            work.0[part as usize] = before.0[part as usize];
        }
    }

    /// For each row how many edges of a label its source has, and its target, lower query vertex first.
    fn degrees(&self, edge: &Edge, rows: &[Row]) -> Vec<[f64; 2]> {
        let degree = |direction: Direction, v: usize, row: &Row| {
            self.store.portion(direction, row[v], edge.label).len() as f64
        };
        let of = |row: &Row| {
            let ends =
                [degree(Direction::Forward, edge.from, row), degree(Direction::Backward, edge.to, row)];
            if edge.from < edge.to {
                ends
            } else {
                [ends[1], ends[0]]
            }
        };
        rows.iter().map(of).collect()
    }

    /// How many sources a scan's rows have: the mean of one over the rows of the same source.
    fn sources(&self, edge: &Edge) -> f64 {
        let label = self.query.filters[edge.from].label;
        let sample = match &self.samples[edge.ends() as usize] {
            Some(sample) if !sample.sample.is_empty() => sample,
            _ => return self.rows(edge.ends()).min(0.5 * self.fitting(edge.from)),
        };
        let kept =
            (sample.rows / self.statistics.edges_at(Direction::Forward, edge.label, label).max(1.0)).min(1.0);
        let source = usize::from(edge.from > edge.to);
        let sum: f64 = sample.degrees.iter().map(|degrees| 1.0 / (kept * degrees[source]).max(1.0)).sum();
        (sample.rows * sum / sample.sample.len() as f64).min(self.fitting(edge.from))
    }
}

/// So many rows, evenly over all.
fn thinned(rows: Vec<Row>, size: usize) -> Vec<Row> {
    if rows.len() <= size {
        return rows;
    }
    (0..size).map(|i| rows[i * rows.len() / size]).collect()
}
