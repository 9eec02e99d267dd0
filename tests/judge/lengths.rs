//! Lengths of scratch at which the engine goes another way, though nothing that it answers depends on that: the tests try these besides those
//! around the need.
use super::graph::Graph;
use super::plan::Operator::{self, Extend, Join, Scan, Unknown};
use super::query::Query;
use rizhavaan::Record;

/// A scan and the operators after it up to the next scan: rows are streamed through them. The results that wait before the scan are build
/// sides, which are held with their links and heads.
#[derive(Clone, Copy, Debug)]
pub struct Segment {
    /// How many results wait, and their words.
    pub waiting: usize,
    pub floor: usize,
    /// How many operators follow the scan, and the words of as many sets of all vertices.
    pub stages: usize,
    pub sets: usize,
    /// The words of its result's rows.
    pub rows: usize,
}

impl Segment {
    /// Where a first pass begins to keep rows, and where it keeps them all: each length and the one before it.
    pub fn turns(self) -> [usize; 4] {
        let (some, all) = (self.floor + self.sets, self.floor + self.sets + self.rows);
        [some.saturating_sub(1), some, all.saturating_sub(1), all]
    }
}

/// The segments of a plan, of whose operators these are the records.
pub fn segments(graph: &Graph, query: &Query, plan: &[Operator], records: &[Record]) -> Vec<Segment> {
    let mut segments: Vec<Segment> = Vec::new();
    let mut pile: Vec<(Vec<usize>, usize)> = Vec::new();
    for (operator, record) in plan.iter().zip(records) {
        let set = match *operator {
            Scan(edge) => {
                let table = |(set, rows): &(Vec<usize>, usize)| set.len() * rows + rows + rows.next_power_of_two();
                let floor = pile.iter().map(table).sum();
                segments.push(Segment { waiting: pile.len(), floor, stages: 0, sets: 0, rows: 0 });
                vec![query.edges[edge].0, query.edges[edge].1]
            }
            Extend(v) => [pile.pop().unwrap().0, vec![v]].concat(),
            Join => {
                let (probe, build) = (pile.pop().unwrap().0, pile.pop().unwrap().0);
                (0..query.vertices()).filter(|v| build.contains(v) || probe.contains(v)).collect()
            }
            Unknown => unreachable!("the plan is accepted"),
        };
        let segment = segments.last_mut().unwrap();
        segment.stages += usize::from(!matches!(operator, Scan(_)));
        segment.sets = segment.stages * graph.vertices();
        segment.rows = set.len() * record.rows as usize;
        pile.push((set, record.rows as usize));
    }
    segments
}
