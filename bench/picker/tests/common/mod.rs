//! Random graphs and queries, and runs of the engine.
#![allow(dead_code)]

use picker_bench::graphs::Graph;
use picker_bench::patterns::{packed, ANY};
use picker_bench::picker::query::{Edge, Filter, Query};
use picker_bench::picker::drawn::drawn;
use picker_bench::picker::{pack, pick, Picked, Statistics, MAX_WORDS};
use picker_bench::random::Random;
use std::collections::BTreeSet;
use rizhavaan::{check_plan, Buffers, Cache, Store};

/// What a random graph is like.
#[derive(Clone, Copy)]
pub struct Shape {
    pub vertices: usize,
    pub edges: usize,
    pub vertex_labels: usize,
    pub edge_labels: usize,
    pub days: usize,
}

pub fn graph(shape: Shape, random: &mut Random) -> Graph {
    let Shape { vertices, edges, vertex_labels, edge_labels, days } = shape;
    let mut drawn = BTreeSet::new();
    for _ in 0..if vertices == 0 { 0 } else { edges } {
        // The lower of two has more edges: some vertices are hubs.
        let mut end = || {
            let most = random.below(vertices);
            random.below(1 + most)
        };
        let ends = (end(), end());
        drawn.insert((ends.0 as u16, 1 + random.below(edge_labels) as u8, ends.1 as u16));
    }
    Graph {
        name: String::new(),
        labels: (0..vertices).map(|_| random.below(vertex_labels) as u16).collect(),
        days: (0..vertices).map(|_| random.below(days) as u16).collect(),
        edges: drawn.into_iter().collect(),
    }
}

/// A random query, connected, whose labels and days may or may not occur.
pub fn query(shape: Shape, random: &mut Random) -> Query {
    let n = 2 + random.below(7);
    let any_label = random.one_of(&[0, 0, 20]);
    let label = |random: &mut Random| {
        let one_more = usize::from(random.percent(5));
        match random.percent(any_label) {
            true => 0,
            false => 1 + random.below(shape.edge_labels.min(254) + one_more) as u32,
        }
    };
    let mut edges = Vec::new();
    for v in 1..n {
        let u = random.below(v);
        let (from, to) = if random.percent(50) { (u, v) } else { (v, u) };
        edges.push(Edge { from, to, label: label(random) });
    }
    for _ in 0..random.one_of(&[0, 0, 1, 2, 6]) {
        let (from, to) = (random.below(n), random.below(n));
        if from != to {
            edges.push(Edge { from, to, label: label(random) });
        }
    }
    edges.sort_by_key(|edge| (edge.from, edge.to, edge.label));
    edges.dedup();
    edges.truncate(24);
    let (labelled, dated) = (random.one_of(&[0, 20, 60]), random.one_of(&[0, 0, 30]));
    let filter = |random: &mut Random| {
        let mut filter = ANY;
        if random.percent(labelled) {
            filter.label = random.below(shape.vertex_labels + 1) as u32;
        }
        if random.percent(dated) {
            filter = Filter { first: random.below(shape.days) as u32, ..filter };
            filter.last = (filter.first + random.below(shape.days) as u32).min(65_535);
        }
        filter
    };
    let filters = (0..n).map(|_| filter(random)).collect();
    let mut pairs = BTreeSet::new();
    for _ in 0..random.one_of(&[0, 0, 0, 1, 3]) {
        let pair = (random.below(n), random.below(n));
        if pair.0 != pair.1 {
            pairs.insert(pair);
        }
    }
    Query::new(filters, edges, pairs.into_iter().collect()).expect("a connected query")
}

pub fn picked(store: &Store, query: &Query) -> Picked {
    let statistics = Statistics::of(store.words()).expect("a store");
    pick(store.words(), &statistics, &packed(query), MAX_WORDS).expect("a plan")
}

/// Rows as numbers, sorted: a vertex has 16 bits, and a row at most eight of them.
fn sorted<'r>(rows: impl Iterator<Item = &'r [u32]>) -> Vec<u128> {
    let number = |row: &[u32]| row.iter().fold(0, |number, &x| number << 16 | u128::from(x));
    let mut rows: Vec<u128> = rows.map(number).collect();
    rows.sort_unstable();
    rows
}

/// The picked plan passes Check plan and lists what the drawn plan lists. Answers how many rows that are.
pub fn same_list(store: &Store, query: &Query, picked: &Picked, buffers: &mut Buffers) -> usize {
    let file = packed(query);
    assert_eq!(
        check_plan(&file, &picked.plan),
        Ok(picked.operators.len()),
        "{query:?}: {:?}",
        picked.operators
    );
    let statistics = Statistics::of(store.words()).expect("a store");
    assert_eq!(store.draw_plan(&file), Ok(pack(&drawn(query, &statistics))), "the drawn plan is the engine's");
    let drawn = store.run_drawn(&file, Cache::On, buffers).expect("a run");
    let drawn = sorted(drawn.rows());
    let run = store.run_growing(&file, &picked.plan, Cache::On, buffers).expect("a run");
    let mine = sorted(run.rows());
    assert!(mine == drawn, "{query:?}: {:?}, {} rows, drawn {}", picked.operators, mine.len(), drawn.len());
    mine.len()
}
