//! A run compared with the judge's, in scratch and list of many lengths.
use super::calls::{self, Input, Ran};
use super::graph::Graph;
use super::lengths::{segments, Segment};
use super::matcher::Matcher;
use super::plan::{self, Operator};
use super::query::Query;
use super::random::Random;
use super::rules;

/// A graph, a query, an accepted plan and what its run answers.
pub struct Case {
    pub graph: Graph,
    pub query: Query,
    pub plan: Vec<Operator>,
    pub cache: bool,
    pub want: rules::Answer,
}

impl Case {
    /// None where a result has more than `most` rows.
    pub fn new(graph: Graph, query: Query, plan: Vec<Operator>, cache: bool, most: usize) -> Option<Case> {
        let want = rules::run(&Matcher::new(&graph), &query, &plan, cache, most)?;
        Some(Case { graph, query, plan, cache, want })
    }

    /// Of a random query and plan.
    pub fn random(r: &Random, graph: Graph, vertices: usize, most: usize) -> Option<Case> {
        let query = Query::random(r, vertices);
        let plan = plan::random(r, &query);
        Case::new(graph, query, plan, r.chance(1, 2), most)
    }

    pub fn segments(&self) -> Vec<Segment> {
        segments(&self.graph, &self.query, &self.plan, &self.want.records)
    }

    /// The same from scratch and list of these lengths: refused just where they are too short.
    pub fn compare(&self, r: &Random, scratch: usize, list: usize) -> u32 {
        let more = r.below(4);
        self.compare_recording(r, scratch, list, self.want.records.len() + more)
    }

    /// The same with so many records.
    pub fn compare_recording(&self, r: &Random, scratch: usize, list: usize, records: usize) -> u32 {
        let extra = r.below(4);
        let store = [self.graph.store(), r.words(extra)].concat();
        let input =
            Input { store: &store, query: &self.query.file(), plan: &plan::file(&self.plan), cache: self.cache };
        let refusal = match () {
            _ if records < self.want.records.len() => 22,
            _ if scratch < self.want.need => 20,
            _ if list < self.want.rows.len() => 21,
            _ => 0,
        };
        let got = calls::run_recording(r, &input, scratch, list, records);
        let want = match refusal {
            0 => {
                let rules::Answer { rows, count, cost, build, probe, records, .. } = self.want.clone();
                Ran { refusal, rows: count as u64, cost, build, probe, list: rows, records }
            }
            _ => Ran { refusal, rows: 0, cost: 0, build: 0, probe: 0, list: Vec::new(), records: Vec::new() },
        };
        assert_eq!(got, want, "{scratch} and {list} words: {:?} {:?} {:?}", self.graph, self.query, self.plan);
        refusal
    }

    /// Lengths around the need, and any others; around those at which the engine goes another way; and with the other cache setting, whose
    /// need is the same.
    pub fn compare_lengths(&self, r: &Random) {
        let (need, rows) = (self.want.need, self.want.rows.len());
        self.compare(r, need, rows);
        self.compare(r, need - 1, rows);
        self.compare(r, need + 1, rows);
        self.compare(r, need - 1, rows.saturating_sub(1));
        self.compare(r, need, rows.saturating_sub(1));
        let (more, most) = (r.below(20), r.below(20));
        self.compare(r, need + more, rows + most);
        let (scratch, list) = (r.below(need + 2), r.below(rows + 2));
        self.compare(r, scratch, list);
        let records = r.below(self.want.records.len() + 2);
        self.compare_recording(r, scratch, list, records);
        for segment in self.segments() {
            for scratch in segment.turns() {
                self.compare(r, scratch, rows);
            }
            self.compare(r, segment.turns()[3].max(need), rows.saturating_sub(1));
        }
        self.compare_other(r);
    }

    /// With the other cache setting, around the same need.
    fn compare_other(&self, r: &Random) {
        let want = rules::run(&Matcher::new(&self.graph), &self.query, &self.plan, !self.cache, usize::MAX).unwrap();
        let (need, rows) = (self.want.need, self.want.rows.len());
        assert_eq!((want.need, &want.rows), (need, &self.want.rows));
        let (graph, query, plan) = (self.graph.clone(), self.query.clone(), self.plan.clone());
        let other = Case { graph, query, plan, cache: !self.cache, want };
        other.compare(r, need, rows);
        other.compare(r, need - 1, rows);
        let more = r.below(need + rows + 1);
        other.compare(r, need + more, rows);
    }
}
