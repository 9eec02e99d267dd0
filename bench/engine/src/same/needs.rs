//! The words of scratch that a run needs: by the sums of request 10, by the rules before it, and so that each row is found once.
use super::{bucket_count, width, First, Run, Segment};
use crate::files::Operator;
use rizhavaan::Record;

#[derive(Clone, Debug, Default)]
pub struct Needs {
    /// By the sums of request 10.
    pub now: usize,
    /// By the rules before it: every operator's result was held whole.
    pub before: usize,
    /// The least in which no segment takes a second pass: its rows are kept in the scratch, or the array has them.
    pub roomy: usize,
    /// The longest set of each operator.
    longest: Vec<usize>,
}

impl Needs {
    pub(super) fn add(&mut self, segment: &Segment, first: &First, longest: usize, array: usize) {
        self.now = first.need;
        self.longest.extend([0].into_iter().chain(first.states[..segment.left].iter().map(|state| state.longest)));
        let in_array = first.rows() <= array / width(first.set);
        let kept = if in_array { 0 } else { segment.top + first.words() + segment.left * longest };
        self.roomy = self.roomy.max(first.need).max(kept);
    }

    /// The words of results that were held, one above the other: those of a new result stand above its operands, with its longest set where the
    /// cache is on, or with a join's table.
    pub(super) fn hold(&mut self, run: &Run, records: &[Record]) {
        let mut pile: Vec<(u32, usize, usize)> = Vec::new();
        for ((operator, record), &longest) in run.plan.iter().zip(records).zip(&self.longest) {
            let top = pile.iter().map(|result| result.1).sum::<usize>();
            let (set, besides) = match *operator {
                Operator::Scan(i) => (1 << run.q.edges[i].0 | 1 << run.q.edges[i].1, 0),
                Operator::Extend(v) => {
                    let (set, _, _) = pile.pop().expect("an operand");
                    (set | 1 << v, if run.cache { longest } else { 0 })
                }
                Operator::Join => {
                    let (probe, build) = (pile.pop().expect("a probe"), pile.pop().expect("a build"));
                    (probe.0 | build.0, build.2 + bucket_count(build.2))
                }
            };
            let rows = record.rows as usize;
            let words = rows * width(set);
            self.before = self.before.max(top + words + besides);
            pile.push((set, words, rows));
        }
    }
}
