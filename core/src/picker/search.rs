//! The search: every ordering of one scan and extends, depth first, the cheapest step first, cut where it
//! takes longer than the best so far. The cache makes a step's time depend on the order of what is covered,
//! so sets alone are not enough.

use super::effort::Limits;
use super::query::{Operator, Set};
use super::samples::Samples;
use super::stage::Stage;

/// Sets that are gone on from, at most.
const MOST_NODES: usize = 3_000;

/// Nanoseconds: where another plan must be many times as fast as the known one and that takes less than this,
/// none is sought, since nothing is to be gained.
pub const SHORT: f64 = 2e6;

/// A plan of the search: what it takes, and its operators.
#[derive(Clone, Debug)]
pub struct Found {
    pub stage: Stage,
    pub plan: Vec<Operator>,
}

/// A search under way.
pub struct Search<'s, 'a> {
    pub samples: &'s mut Samples<'a>,
    /// Once a plan is found, sampling stops at so much effort.
    limits: Limits,
    /// Plans of up to so many times the best time are kept.
    slack: f64,
    pub best: f64,
    pub found: Vec<Found>,
    /// For each set the fastest stage that covers it.
    pub stages: Vec<Option<Found>>,
    plan: Vec<Operator>,
    nodes: usize,
}

impl<'s, 'a> Search<'s, 'a> {
    pub fn new(samples: &'s mut Samples<'a>, limits: Limits) -> Search<'s, 'a> {
        let sets = 1 << samples.query.vertices();
        Search {
            samples,
            limits,
            slack: 1.0,
            best: f64::MAX,
            found: Vec::new(),
            stages: vec![None; sets],
            plan: Vec::with_capacity(8),
            nodes: 0,
        }
    }

    /// The best ordering, beginning with one that is known, which is taken unless another is so many times as
    /// fast, and with the best of the round before. Estimates get better while the search goes on, so it is made
    /// again from the first one's best plan, by the estimates as they are then.
    pub fn best_ordering(&mut self, known: &[Operator], margin: f64, before: &[Operator]) -> Option<Found> {
        let mut best = self.described(known)?;
        if !before.is_empty() && before != known {
            best = Some(self.described(before)?)
                .filter(|found| found.stage.time < best.stage.time)
                .unwrap_or(best);
        } else if margin > 1.0 && best.stage.time < SHORT && !self.samples.has_unseen(known) {
            return Some(best);
        }
        for _ in 0..2 {
            let margin = if best.plan == known { margin } else { 1.0 };
            self.best = best.stage.time / margin;
            self.nodes = 0;
            self.stages.iter_mut().for_each(|stage| *stage = None);
            self.orderings();
            let found = self.found.pop().unwrap_or(best);
            best = self.described(&found.plan)?;
        }
        let known = self.described(known)?;
        if known.stage.time <= margin * best.stage.time {
            return Some(known);
        }
        Some(best)
    }

    /// A plan by the estimates as they are now.
    fn described(&mut self, plan: &[Operator]) -> Option<Found> {
        let stage = *self.samples.stages(plan).last()?;
        Some(Found { stage, plan: plan.to_vec() })
    }

    /// All orderings.
    pub fn orderings(&mut self) {
        let mut scans: Vec<(Stage, usize)> =
            (0..self.samples.query.edges.len()).map(|i| (self.samples.scanned(i), i)).collect();
        scans.sort_by(|a, b| a.0.time.total_cmp(&b.0.time).then(a.1.cmp(&b.1)));
        for (stage, i) in scans {
            if self.too_long(stage.time) {
                break;
            }
            self.go_on(stage, Operator::Scan(i));
        }
    }

    /// The orderings again, this time all that take at most so many times the best time.
    pub fn orderings_within(&mut self, slack: f64) {
        self.slack = slack;
        self.nodes = 0;
        self.found.clear();
        if slack == f64::MAX {
            self.limits = Limits::NONE;
        }
        self.orderings();
        let limit = slack * self.best;
        self.found.retain(|found| found.stage.time <= limit);
        self.slack = 1.0;
    }

    /// Goes on from a stage of a plan that ends with a join, to plans faster than a time.
    pub fn from_stage(&mut self, stage: Stage, plan: &[Operator], below: f64) {
        self.best = below;
        self.nodes = 0;
        self.plan = plan.to_vec();
        self.deeper(stage);
        self.plan.clear();
    }

    fn too_long(&self, time: f64) -> bool {
        if self.slack > 1.0 {
            time > self.slack * self.best
        } else {
            time >= self.best
        }
    }

    fn go_on(&mut self, stage: Stage, operator: Operator) {
        self.plan.push(operator);
        self.deeper(stage);
        self.plan.pop();
    }

    /// Notes a stage where none that covers its set is faster.
    fn note(&mut self, stage: Stage) {
        let known = &mut self.stages[stage.set as usize];
        if known.as_ref().map_or(true, |known| stage.time < known.stage.time) {
            *known = Some(Found { stage, plan: self.plan.clone() });
        }
    }

    fn deeper(&mut self, stage: Stage) {
        let query = self.samples.query;
        if stage.set == query.all() {
            self.best = self.best.min(stage.time);
            if self.slack == 1.0 {
                self.found.clear();
            }
            self.found.push(Found { stage, plan: self.plan.clone() });
            return;
        }
        self.note(stage);
        self.nodes += 1;
        if self.nodes > MOST_NODES {
            return;
        }
        // Once sampling took all that it may, the search goes on by what is known.
        if !self.is_spent() || self.best == f64::MAX {
            self.samples.extend_all(stage.set);
        }
        let known = |v: &usize| self.samples.extension(stage.set, *v).is_some();
        let mut steps: Vec<(Stage, usize)> =
            query.next(stage.set).filter(known).map(|v| (self.samples.extended_by(&stage, v), v)).collect();
        steps.sort_by(|a, b| a.0.time.total_cmp(&b.0.time).then(a.1.cmp(&b.1)));
        for (next, v) in steps {
            if self.too_long(next.time) {
                break;
            }
            self.go_on(next, Operator::Extend(v));
        }
    }

    /// Whether sampling took all that it may.
    pub fn is_spent(&self) -> bool {
        self.samples.effort > self.limits.at(self.best)
    }

    /// The sets that were covered below a time, ascending.
    pub fn covered(&self, below: f64) -> Vec<Set> {
        let fast =
            |set: &Set| self.stages[*set as usize].as_ref().map_or(false, |found| found.stage.time < below);
        (0..self.stages.len() as Set).filter(fast).collect()
    }
}
