//! Cases worked by hand, to which the judge and the library are held.
use super::calls::{self, Input, Ran};
use super::graph::Graph;
use super::lengths::segments;
use super::matcher::Matcher;
use super::plan::{self, Operator};
use super::query::Query;
use super::random::{each, Random};
use super::{in_words, rules};

pub struct Worked {
    pub graph: Graph,
    pub query: Query,
    pub plan: Vec<Operator>,
    pub rows: Vec<u32>,
    pub build: u64,
    pub probe: u64,
    /// With the cache off, and on.
    pub cost: [u64; 2],
    /// With the cache off and on alike.
    pub need: usize,
}

/// A case without a join.
pub fn case(graph: Graph, query: Query, plan: &[Operator], rows: &[u32], cost: [u64; 2], need: usize) -> Worked {
    Worked { graph, query, plan: plan.to_vec(), rows: rows.to_vec(), build: 0, probe: 0, cost, need }
}

/// The same with so many build rows and probe rows.
pub fn joined(build: u64, probe: u64, case: Worked) -> Worked {
    Worked { build, probe, ..case }
}

impl Worked {
    fn answer(&self, cache: bool) -> rules::Answer {
        rules::Answer {
            rows: self.rows.clone(),
            count: self.rows.len() / self.query.vertices(),
            cost: self.cost[usize::from(cache)],
            build: self.build,
            probe: self.probe,
            need: self.need,
            // Not worked by hand: those of the rules in words.
            records: in_words::run(&self.graph, &self.query, &self.plan, cache).records,
        }
    }

    /// The judge's readers, its rules, and the rules in words.
    pub fn hold_judge(&self) {
        let Worked { graph, query, plan, .. } = self;
        assert_eq!(Query::read(&query.file()).as_ref(), Ok(query));
        assert_eq!(plan::read(query, &plan::file(plan)).as_ref(), Ok(plan));
        for cache in [false, true] {
            let answer = rules::run(&Matcher::new(graph), query, plan, cache, 100).unwrap();
            assert_eq!(answer, self.answer(cache), "{graph:?} {query:?} {plan:?}");
            assert_eq!(answer, in_words::run(graph, query, plan, cache), "{graph:?} {query:?} {plan:?}");
        }
    }

    /// The library, in every scratch up to beyond the need and around the lengths at which it goes another way, and in lists around the
    /// rows: where scratch and list are both too short, the scratch is named.
    pub fn hold_library(&self, r: &Random) {
        let Worked { graph, query, plan, .. } = self;
        for cache in [false, true] {
            let (need, list) = (self.need, self.rows.len());
            let run = |scratch, list| run(r, graph, query, plan, cache, scratch, list);
            for scratch in 0..need {
                for list in [list, list + 40, list / 2, 0] {
                    assert_eq!(run(scratch, list).refusal, 20, "{scratch} words: {graph:?} {query:?} {plan:?}");
                }
            }
            let answer = self.answer(cache);
            let turns = segments(graph, query, plan, &answer.records).into_iter().flat_map(|segment| segment.turns());
            for scratch in turns.filter(|&words| need < words).chain([need, need + 1, need + 40]) {
                let ran = run(scratch, list);
                assert_eq!(ran, accepted(answer.clone()), "{scratch} words: {graph:?} {query:?} {plan:?}");
                assert_eq!(run(scratch, list + 40), ran);
                if list > 0 {
                    assert_eq!(run(scratch, list - 1).refusal, 21, "{scratch} words: {graph:?} {query:?} {plan:?}");
                }
            }
        }
    }
}

fn accepted(answer: rules::Answer) -> Ran {
    let rules::Answer { rows, count, cost, build, probe, records, .. } = answer;
    Ran { refusal: 0, rows: count as u64, cost, build, probe, list: rows, records }
}

pub fn run(r: &Random, g: &Graph, q: &Query, p: &[Operator], cache: bool, scratch: usize, list: usize) -> Ran {
    let input = Input { store: &g.store(), query: &q.file(), plan: &plan::file(p), cache };
    calls::run(r, &input, scratch, list)
}

/// Holds the judge and the library to every case.
pub fn hold(cases: &[Worked]) {
    cases.iter().for_each(Worked::hold_judge);
    each(0..1, |r| cases.iter().for_each(|case| case.hold_library(r)));
}
