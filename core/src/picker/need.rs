//! Bounds of the scratch that a plan may need, as request 11 states them: they hold whatever the estimates
//! say.

use super::query::{Descriptor, Operator, Query, Set};
use super::stage::table_words;
use super::statistics::Statistics;
use super::store::{Direction, Store};

/// The longest portions of a store, looked up once each.
pub struct Bounds<'a> {
    store: Store<'a>,
    statistics: &'a Statistics,
    query: &'a Query,
    longest: Vec<(Direction, u32, u64)>,
}

/// The bounds of a result: its set, its rows, and the need of all that it is made of.
#[derive(Clone, Copy, Debug)]
struct Bound {
    set: Set,
    rows: u64,
    need: u64,
}

fn width(set: Set) -> u64 {
    u64::from(set.count_ones())
}

impl<'a> Bounds<'a> {
    pub fn new(store: Store<'a>, statistics: &'a Statistics, query: &'a Query) -> Bounds<'a> {
        Bounds { store, statistics, query, longest: Vec::new() }
    }

    /// Scratch words with which no run of an accepted plan is refused; the largest number where it is too
    /// large.
    pub fn need(&mut self, plan: &[Operator]) -> u64 {
        let mut pile: Vec<Bound> = Vec::new();
        for operator in plan {
            let bound = match *operator {
                Operator::Scan(i) => self.scan(i),
                Operator::Extend(v) => match pile.pop() {
                    Some(operand) => self.extend(operand, v),
                    None => return u64::MAX,
                },
                Operator::Join => match (pile.pop(), pile.pop()) {
                    (Some(probe), Some(build)) => join(build, probe),
                    _ => return u64::MAX,
                },
            };
            pile.push(bound);
        }
        pile.last().map_or(u64::MAX, |bound| bound.need)
    }

    /// Words that no ordering's bound passes, without a look at the lists: no portion has more entries than
    /// there are edges.
    pub fn most_of_orderings(&self) -> u64 {
        let (n, edges) = (self.query.vertices() as u64, self.store.entries(Direction::Forward).len() as u64);
        n * (n + 1) / 2 + n * edges
    }

    /// The ordering with the least need, and that need. What an extend adds depends only on the set that it
    /// extends, so each set has a least need of its own.
    pub fn least_ordering(&mut self) -> (Vec<Operator>, u64) {
        let query = self.query;
        let mut least: Vec<Option<(Bound, Vec<Operator>)>> = vec![None; 1 << query.vertices()];
        for (i, edge) in query.edges.iter().enumerate() {
            let known = &mut least[edge.ends() as usize];
            if known.is_none() {
                *known = Some((self.scan(i), vec![Operator::Scan(i)]));
            }
        }
        // An extend gives a larger number, so every set is finished before it is gone on from.
        for set in 0..least.len() {
            let (bound, plan) = match &least[set] {
                Some(found) => found.clone(),
                None => continue,
            };
            for v in query.next(bound.set) {
                let next = self.extend(bound, v);
                let known = &mut least[next.set as usize];
                if known.as_ref().map_or(true, |(other, _)| next.need < other.need) {
                    *known = Some((next, [&plan[..], &[Operator::Extend(v)]].concat()));
                }
            }
        }
        match least.pop().flatten() {
            Some((bound, plan)) => (plan, bound.need),
            None => (Vec::new(), u64::MAX),
        }
    }

    fn scan(&self, i: usize) -> Bound {
        let edge = &self.query.edges[i];
        let rows = self.statistics.edge_labels(edge.label).map(|known| u64::from(known.count)).sum();
        Bound { set: edge.ends(), rows, need: 2 }
    }

    fn extend(&mut self, operand: Bound, v: usize) -> Bound {
        let descriptors = self.query.descriptors(operand.set, v);
        let least = descriptors.iter().map(|descriptor| self.longest(descriptor)).min().unwrap_or(0);
        let set = operand.set | 1 << v;
        let need = operand.need.saturating_add(width(set)).saturating_add(least);
        Bound { set, rows: operand.rows.saturating_mul(least), need }
    }

    /// The longest portion that any vertex has for a descriptor's label and direction. A list that is no
    /// longer than the longest portion so far is passed by.
    fn longest(&mut self, descriptor: &Descriptor) -> u64 {
        let (direction, label) = (descriptor.direction, descriptor.label);
        if let Some(known) = self.longest.iter().find(|known| (known.0, known.1) == (direction, label)) {
            return known.2;
        }
        let mut longest = 0;
        for v in 0..self.store.vertices() as u32 {
            if self.store.list(direction, v).len() > longest {
                longest = longest.max(self.store.portion(direction, v, label).len());
            }
        }
        self.longest.push((direction, label, longest as u64));
        longest as u64
    }
}

fn join(build: Bound, probe: Bound) -> Bound {
    let set = build.set | probe.set;
    let words = build.rows.saturating_mul(width(build.set));
    let table = words.saturating_add(table_words(build.rows));
    let need =
        build.need.saturating_add(words).max(table.saturating_add(probe.need).saturating_add(width(set)));
    Bound { set, rows: build.rows.saturating_mul(probe.rows), need }
}

#[cfg(test)]
mod tests {
    use super::super::query::{Edge, Filter};
    use super::*;

    /// Four vertices; edges of label 1: 0→1, 0→2, 1→2, 1→3, 2→3. Each direction's longest portion has two
    /// entries.
    fn words() -> Vec<u32> {
        let mut words = vec![4, 5, 0, 0, 0, 0, 0, 0, 0, 0];
        words.extend([0, 2, 4, 5, 5].iter().copied());
        words.extend([1, 2, 2, 3, 3].iter().map(|x| 65_536 + x));
        words.extend([0, 0, 1, 3, 5].iter().copied());
        words.extend([0, 0, 1, 1, 2].iter().map(|x| 65_536 + x));
        words
    }

    fn query(n: usize, edges: &[(usize, usize)]) -> Query {
        let any = Filter { label: 0, first: 0, last: 65_535 };
        let edges = edges.iter().map(|&(from, to)| Edge { from, to, label: 1 }).collect();
        Query::new(vec![any; n], edges, Vec::new()).expect("a query")
    }

    #[test]
    fn bounds_by_the_sums_of_requests_10_and_11() {
        use Operator::{Extend, Join, Scan};
        let words = words();
        let statistics = Statistics::of(&words).expect("a store");
        let store = Store::of(&words).expect("a store");
        let triangle = query(3, &[(0, 1), (0, 2), (1, 2)]);
        // 2 for the scan, a row of 3, a set of 2.
        assert_eq!(Bounds::new(store, &statistics, &triangle).need(&[Scan(0), Extend(2)]), 7);
        let diamond = query(4, &[(0, 1), (0, 2), (1, 2), (1, 3), (2, 3)]);
        let mut bounds = Bounds::new(store, &statistics, &diamond);
        assert_eq!(bounds.need(&[Scan(2), Extend(0), Extend(3)]), 13);
        // 5 × 2 build rows of 3 words, 10 links, 16 heads, 7 for the probe side, a row of 4.
        assert_eq!(bounds.need(&[Scan(2), Extend(0), Scan(2), Extend(3), Join]), 67);
        assert_eq!(bounds.least_ordering().1, 13);
        assert!(bounds.most_of_orderings() >= 13);
    }
}
