//! Random patterns over a graph. Each is read off some place of the graph, so that it has a match: a
//! connected part, of which some edges, labels and days are asked for.
use crate::graphs::Bits;
use crate::picker::query::{Edge, Filter, Operator, Query};
use crate::picker::store::{neighbour, Direction, Store, SPAN};
use crate::random::Random;

/// A query that asks for nothing of a vertex.
pub const ANY: Filter = Filter { label: 0, first: 0, last: 65_535 };

/// The packed file of a query whose edges and pairs ascend.
pub fn packed(query: &Query) -> Vec<u8> {
    let mut file = Bits::default();
    file.put(query.filters.len() as u64, 4);
    file.put(query.edges.len() as u64, 5);
    for filter in &query.filters {
        [filter.label, filter.first, filter.last].iter().for_each(|&number| file.put(number.into(), 16));
    }
    for edge in &query.edges {
        file.put(edge.from as u64, 3);
        file.put(edge.to as u64, 3);
        file.put(edge.label.into(), 8);
    }
    file.put(query.pairs.len() as u64, 4);
    for &(low, high) in &query.pairs {
        file.put(low as u64, 3);
        file.put(high as u64, 3);
    }
    file.bytes()
}

/// Every plan of one scan and extends.
pub fn orderings(query: &Query) -> Vec<Vec<Operator>> {
    fn go_on(query: &Query, set: u32, plan: &mut Vec<Operator>, all: &mut Vec<Vec<Operator>>) {
        if set == query.all() {
            all.push(plan.clone());
        }
        for v in query.next(set) {
            plan.push(Operator::Extend(v));
            go_on(query, set | 1 << v, plan, all);
            plan.pop();
        }
    }
    let mut all = Vec::new();
    for (i, edge) in query.edges.iter().enumerate() {
        go_on(query, edge.ends(), &mut vec![Operator::Scan(i)], &mut all);
    }
    all
}

/// What the patterns of a kind ask for, in a hundred.
#[derive(Clone, Copy)]
struct Kind {
    labels: usize,
    more_edges: usize,
    any_label: usize,
    days: usize,
    pair: usize,
}

/// A random pattern of so many vertices that has a match in a graph with an edge; nothing where no
/// connected part of so many vertices was come upon.
pub fn pattern(store: &Store, n: usize, random: &mut Random) -> Option<Query> {
    let kind = Kind {
        labels: random.one_of(&[0, 30, 60, 100]),
        more_edges: random.one_of(&[0, 50, 100]),
        any_label: random.one_of(&[0, 0, 0, 0, 30]),
        days: random.one_of(&[0, 0, 0, 50]),
        pair: random.one_of(&[0, 0, 0, 100]),
    };
    let place = part(store, n, random)?;
    let mut edges = place.edges.clone();
    for a in 0..n {
        for b in 0..n {
            for &entry in store.list(Direction::Forward, place.vertices[a]) {
                if a != b && neighbour(entry) == place.vertices[b] && random.percent(kind.more_edges) {
                    edges.push(Edge { from: a, to: b, label: entry / SPAN });
                }
            }
        }
    }
    for edge in &mut edges {
        if random.percent(kind.any_label) {
            edge.label = 0;
        }
    }
    edges.sort_by_key(|edge| (edge.from, edge.to, edge.label));
    edges.dedup();
    edges.truncate(24);
    let filters = place.vertices.iter().map(|&x| filter(store, x, &kind, random)).collect();
    let mut pairs = Vec::new();
    if random.percent(kind.pair) {
        let (a, b) = (random.below(n), random.below(n));
        if a != b {
            pairs.push(if place.vertices[a] < place.vertices[b] { (a, b) } else { (b, a) });
        }
    }
    Query::new(filters, edges, pairs)
}

/// What is asked of a vertex, such that x fits.
fn filter(store: &Store, x: u32, kind: &Kind, random: &mut Random) -> Filter {
    let mut filter = ANY;
    if random.percent(kind.labels) {
        filter.label = store.labels[x as usize];
    }
    if random.percent(kind.days) {
        let (day, width) = (store.days[x as usize], 50 + random.below(2_500) as u32);
        let before = random.below(width as usize) as u32;
        filter.first = day.saturating_sub(before);
        filter.last = (filter.first + width).max(day).min(65_535);
    }
    filter
}

/// A connected part of a graph: its vertices, numbered at random, and the edges by which it was come upon.
struct Place {
    vertices: Vec<u32>,
    edges: Vec<Edge>,
}

fn part(store: &Store, n: usize, random: &mut Random) -> Option<Place> {
    let mut number: Vec<usize> = (0..n).collect();
    (1..n).rev().for_each(|i| number.swap(i, random.below(i + 1)));
    // Half of the places begin at any vertex, half at one that some edge reaches: a hub more often.
    let first = if random.percent(50) {
        random.below(store.vertices()) as u32
    } else {
        neighbour(random.one_of(store.entries(Direction::Forward)))
    };
    let mut come: Vec<u32> = vec![first];
    let mut place = Place { vertices: vec![0; n], edges: Vec::new() };
    place.vertices[number[0]] = first;
    for _ in 0..100 * n {
        if come.len() == n {
            return Some(place);
        }
        let i = random.below(come.len());
        let direction = if random.percent(50) { Direction::Forward } else { Direction::Backward };
        let list = store.list(direction, come[i]);
        if list.is_empty() {
            continue;
        }
        let entry = random.one_of(list);
        let (x, label) = (neighbour(entry), entry / SPAN);
        if come.contains(&x) {
            continue;
        }
        let (old, new) = (number[i], number[come.len()]);
        come.push(x);
        place.vertices[new] = x;
        place.edges.push(match direction {
            Direction::Forward => Edge { from: old, to: new, label },
            Direction::Backward => Edge { from: new, to: old, label },
        });
    }
    None
}
