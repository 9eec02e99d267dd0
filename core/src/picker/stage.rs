//! What a part of a plan has covered, and what it took: the model of time, cache and need, operator by
//! operator.

use super::cache::{Prefix, Prefixes};
use super::query::{Operator, Set};
use super::samples::Samples;
use super::time::{is_early, time_of, Part};

/// The result of an operator, and all that went into it.
#[derive(Clone, Copy, Debug)]
pub struct Stage {
    pub set: Set,
    /// Nanoseconds so far.
    pub time: f64,
    /// Scratch words, by the sums of request 10.
    pub need: f64,
    prefixes: Prefixes,
}

impl Stage {
    fn width(&self) -> f64 {
        f64::from(self.set.count_ones())
    }
}

/// The words of a join's table of build rows: a link for each and as many heads as the smallest power of
/// two not below their number.
pub fn table_words(build_rows: u64) -> u64 {
    build_rows.saturating_add(build_rows.max(1).checked_next_power_of_two().unwrap_or(u64::MAX))
}

impl Samples<'_> {
    /// After the scan of a query edge.
    pub fn scanned(&mut self, i: usize) -> Stage {
        let scan = self.scan(i);
        let edge = self.query.edges[i];
        let set = edge.ends();
        let prefixes = Prefixes::of_scan(1 << edge.from, scan.sources, set, self.rows(set));
        Stage { set, time: scan.time, need: 2.0, prefixes }
    }

    /// After an extend by a vertex, whose extension is made.
    pub fn extended_by(&self, stage: &Stage, v: usize) -> Stage {
        let Stage { set, time, need, prefixes } = stage;
        let larger = set | 1 << v;
        let (rows, out) = (self.rows(*set), self.rows(larger));
        let extension = match self.extension(*set, v) {
            Some(extension) => extension,
            None => return Stage { set: larger, ..*stage },
        };
        let used = self.query.used(*set, v);
        let holding = prefixes.holding(used);
        let distinct = prefixes.all()[holding].distinct;
        let (computed, each) = match self.mean_at(prefixes, holding, v) {
            Some((each, _)) if distinct < rows => (distinct, each),
            _ => (rows, extension.time),
        };
        let cached = rows - computed;
        let took = computed * each
            + time_of(Part::Cached, cached)
            + time_of(Part::Kept, cached * extension.set)
            + time_of(Part::Word, out * (stage.width() + 1.0))
            + if is_early(*set, v) { time_of(Part::Early, out) } else { 0.0 };
        let own = |i: usize| match used & !prefixes.all()[i].set {
            0 => self.mean_at(prefixes, i, v).map(|(_, hit)| hit),
            _ => None,
        };
        let mut after = prefixes.surviving(rows, extension.hit, own);
        after.push(Prefix { set: larger, distinct: out });
        let longest = extension.longest.max(extension.rows).min(self.fitting(v));
        Stage { set: larger, time: time + took, need: need + stage.width() + 1.0 + longest, prefixes: after }
    }

    /// Time and hits of an extend as means over the different beginnings of a prefix, where they are known.
    fn mean_at(&self, prefixes: &Prefixes, i: usize, v: usize) -> Option<(f64, f64)> {
        let prefix = prefixes.all()[i];
        if i > 0 {
            return self.extension(prefix.set, v).map(|extension| (extension.time, extension.hit));
        }
        let scanned = prefixes.scanned();
        let lower = scanned & scanned.wrapping_neg();
        let end = if prefix.set == lower { 0 } else { 1 };
        self.extension(scanned, v).map(|extension| extension.by_end[end])
    }

    /// After a join, whose rows were estimated.
    pub fn joined(&self, build: &Stage, probe: &Stage) -> Stage {
        let set = build.set | probe.set;
        let (built, probed, out) = (self.rows(build.set), self.rows(probe.set), self.rows(set));
        let took = time_of(Part::Build, built)
            + time_of(Part::Probe, probed)
            + time_of(Part::Joined, out)
            + time_of(Part::Word, out * f64::from(set.count_ones()));
        let mut prefixes = probe.prefixes.surviving(probed, (out / probed.max(1e-9)).min(1.0), |_| None);
        prefixes.push(Prefix { set, distinct: out });
        let words = built * build.width();
        let table = table_words(built.min(1e18) as u64) as f64;
        let need = (build.need + words).max(words + table + probe.need + f64::from(set.count_ones()));
        Stage { set, time: build.time + probe.time + took, need, prefixes }
    }

    /// The stages of an accepted plan, one for each operator; each time is that of all operators that its
    /// result is made of.
    pub fn stages(&mut self, plan: &[Operator]) -> Vec<Stage> {
        let (mut pile, mut all): (Vec<Stage>, Vec<Stage>) = (Vec::new(), Vec::new());
        for (at, operator) in plan.iter().enumerate() {
            let stage = match *operator {
                Operator::Scan(i) => self.scanned(i),
                Operator::Extend(v) => match pile.pop() {
                    Some(operand) => {
                        self.extend_along(operand.set, &plan[at..]);
                        self.extended_by(&operand, v)
                    }
                    None => break,
                },
                Operator::Join => match (pile.pop(), pile.pop()) {
                    (Some(probe), Some(build)) => {
                        self.reach(build.set, build.set | probe.set);
                        self.joined(&build, &probe)
                    }
                    _ => break,
                },
            };
            pile.push(stage);
            all.push(stage);
        }
        all
    }

    /// Whether a proper part of an ordering has no sample row, although it may have rows.
    pub fn has_unseen(&self, plan: &[Operator]) -> bool {
        let mut set = 0;
        plan.iter().any(|operator| {
            match *operator {
                Operator::Scan(i) => set |= self.query.edges[i].ends(),
                Operator::Extend(v) => set |= 1 << v,
                Operator::Join => {}
            }
            set != self.query.all() && self.unseen(set)
        })
    }

    /// Makes the extensions of a set by the vertices of the extends from here on that use none beside it: later
    /// ones are asked for what a prefix says of them.
    fn extend_along(&mut self, set: Set, plan: &[Operator]) {
        let mut covered = set;
        for operator in plan {
            match *operator {
                Operator::Extend(v) => {
                    if self.query.used(covered, v) & !set == 0 {
                        self.extend(set, v);
                    }
                    covered |= 1 << v;
                }
                _ => return,
            }
        }
    }

    /// Makes the extensions of a set by every vertex beside it.
    pub fn extend_all(&mut self, set: Set) {
        let query = self.query;
        query.next(set).for_each(|v| self.extend(set, v));
    }

    /// Estimates the rows of a larger set, from those of one within it, vertex by vertex.
    pub fn reach(&mut self, from: Set, to: Set) {
        let query = self.query;
        let mut at = from;
        while at != to && !self.reached(to) {
            match query.next(at).find(|v| to >> v & 1 == 1) {
                Some(v) => {
                    self.extend(at, v);
                    at |= 1 << v;
                }
                None => return,
            }
        }
    }
}
