//! A pick depends only on edges whose labels the query names.
mod common;

use common::{graph, picked, query, Shape};
use picker_bench::graphs::Graph;
use picker_bench::picker::query::Query;
use picker_bench::random::Random;
use std::collections::BTreeSet;
use rizhavaan::Store;

/// The graph with other edges of labels that a query does not name: a share of them taken away, and some
/// drawn anew.
fn with_others(
    graph: &Graph,
    query: &Query,
    kept: usize,
    added: usize,
    labels: usize,
    random: &mut Random,
) -> Graph {
    let named: BTreeSet<u8> = query.edges.iter().map(|edge| edge.label as u8).collect();
    let mut edges = BTreeSet::new();
    for &edge in &graph.edges {
        if named.contains(&edge.1) || random.percent(kept) {
            edges.insert(edge);
        }
    }
    let n = graph.labels.len();
    for _ in 0..if n == 0 { 0 } else { added } {
        let label = 1 + random.below(labels) as u8;
        if !named.contains(&label) {
            // Half of them at a few vertices: lists grow by orders of magnitude.
            let hub = random.below(n.min(3));
            let ends = if random.percent(50) { (hub, random.below(n)) } else { (random.below(n), hub) };
            edges.insert((ends.0 as u16, label, ends.1 as u16));
        }
    }
    Graph {
        name: String::new(),
        labels: graph.labels.clone(),
        days: graph.days.clone(),
        edges: edges.into_iter().collect(),
    }
}

fn same_picks(graphs: usize, vertices: &[usize], degree: usize, seed: u64) {
    let mut random = Random::new(seed);
    let mut compared = 0;
    for _ in 0..graphs {
        let vertices = random.one_of(vertices);
        let shape = Shape {
            vertices,
            edges: random.below(degree * vertices + 2),
            vertex_labels: random.one_of(&[1, 4, 300]),
            edge_labels: random.one_of(&[2, 5, 255]),
            days: 50,
        };
        let one = graph(shape, &mut random);
        let query = query(shape, &mut random);
        if query.edges.iter().any(|edge| edge.label == 0) {
            continue;
        }
        let store = Store::load(&one.file()).expect("an accepted graph");
        let pick = picked(&store, &query);
        for (kept, added) in [(0, 0), (50, vertices), (100, 10 * vertices)] {
            let other = with_others(&one, &query, kept, added, shape.edge_labels, &mut random);
            let store = Store::load(&other.file()).expect("an accepted graph");
            // Plan, estimates, need and first buffers: all of it.
            assert_eq!(picked(&store, &query), pick, "{query:?}");
            compared += 1;
        }
    }
    assert!(compared > graphs, "{compared} comparisons");
}

#[test]
fn foreign_edges_do_not_change_a_pick() {
    same_picks(1_500, &[1, 3, 8, 20, 60], 4, 14);
}

#[test]
fn foreign_edges_do_not_change_a_pick_over_a_large_graph() {
    same_picks(40, &[5_000, 20_000], 6, 41);
}
