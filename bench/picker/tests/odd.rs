//! Odd graphs and queries.
mod common;

use common::{graph, picked, query, same_list, Shape};
use picker_bench::graphs::Graph;
use picker_bench::patterns::{packed, pattern, ANY};
use picker_bench::picker::query::{Edge, Filter, Query};
use picker_bench::picker::store::Store as Parts;
use picker_bench::picker::{pick, Picked, Statistics, MAX_WORDS};
use picker_bench::random::Random;
use rizhavaan::{Buffers, Store};

fn path(filters: [Filter; 3], labels: [u32; 2]) -> Query {
    let edges = vec![Edge { from: 0, to: 1, label: labels[0] }, Edge { from: 1, to: 2, label: labels[1] }];
    Query::new(filters.to_vec(), edges, Vec::new()).expect("a query")
}

fn store(graph: &Graph) -> Store {
    Store::load(&graph.file()).expect("an accepted graph")
}

fn rows(store: &Store, query: &Query) -> (usize, Picked) {
    let picked = picked(store, query);
    (same_list(store, query, &picked, &mut Buffers::new()), picked)
}

fn last_rows(picked: &Picked) -> f64 {
    picked.operators.last().expect("an operator").rows
}

/// A graph of some thousand vertices.
const LARGE: Shape = Shape { vertices: 3_000, edges: 9_000, vertex_labels: 5, edge_labels: 4, days: 100 };

#[test]
fn a_graph_of_no_vertices() {
    let empty = Graph { name: String::new(), labels: vec![], days: vec![], edges: vec![] };
    let (found, picked) = rows(&store(&empty), &path([ANY; 3], [1, 0]));
    assert_eq!((found, last_rows(&picked)), (0, 0.0));
}

#[test]
fn vertices_without_an_edge() {
    let lonely = Graph { name: String::new(), labels: vec![1; 50], days: vec![0; 50], edges: vec![] };
    let (found, picked) = rows(&store(&lonely), &path([ANY; 3], [0, 7]));
    assert_eq!((found, last_rows(&picked)), (0, 0.0));
}

#[test]
fn labels_that_do_not_occur_and_days_that_nothing_has() {
    let store = store(&graph(LARGE, &mut Random::new(1)));
    for filter in [
        Filter { label: 65_535, ..ANY },
        Filter { first: 101, ..ANY },
        Filter { label: 3, first: 300, last: 400 },
    ] {
        for at in 0..3 {
            let mut filters = [ANY; 3];
            filters[at] = filter;
            let (found, picked) = rows(&store, &path(filters, [1, 2]));
            assert_eq!((found, last_rows(&picked)), (0, 0.0));
        }
    }
    let (found, picked) = rows(&store, &path([ANY; 3], [1, 200]));
    assert_eq!((found, last_rows(&picked)), (0, 0.0));
}

#[test]
fn pairs_that_contradict_each_other() {
    let store = store(&graph(LARGE, &mut Random::new(2)));
    let query = path([ANY; 3], [1, 1]);
    let query = Query::new(query.filters, query.edges, vec![(0, 2), (2, 0)]).expect("a query");
    assert_eq!(rows(&store, &query).0, 0);
}

#[test]
fn one_vertex_label() {
    let shape = Shape { vertex_labels: 1, ..LARGE };
    random_patterns(shape, 3);
}

#[test]
fn edge_labels_1_to_255() {
    let shape = Shape { edges: 30_000, edge_labels: 255, ..LARGE };
    random_patterns(shape, 4);
}

#[test]
fn as_many_vertex_labels_as_vertices() {
    let mut random = Random::new(5);
    let mut graph = graph(Shape { vertices: 60_000, edges: 100_000, ..LARGE }, &mut random);
    graph.labels = (0..60_000).collect();
    patterns_of(&graph, &mut random);
}

#[test]
fn a_hub_that_every_vertex_touches() {
    let mut random = Random::new(6);
    let mut graph = graph(Shape { vertices: 2_000, edges: 2_000, ..LARGE }, &mut random);
    graph.edges.extend((1..2_000).map(|v| (0, 1, v)));
    graph.edges.extend((1..2_000).map(|v| (v, 2, 0)));
    graph.edges.sort_unstable();
    graph.edges.dedup();
    patterns_of(&graph, &mut random);
}

fn random_patterns(shape: Shape, seed: u64) {
    let mut random = Random::new(seed);
    let graph = graph(shape, &mut random);
    patterns_of(&graph, &mut random);
    let store = store(&graph);
    let mut buffers = Buffers::new();
    for _ in 0..40 {
        let query = query(shape, &mut random);
        let picked = picked(&store, &query);
        if last_rows(&picked) < 1e4 && query.vertices() < 5 {
            same_list(&store, &query, &picked, &mut buffers);
        }
    }
}

/// Patterns that have a match, of which some have many: those are only picked for.
fn patterns_of(graph: &Graph, random: &mut Random) {
    let store = store(graph);
    let parts = Parts::of(store.words()).expect("a store");
    let mut buffers = Buffers::new();
    let mut compared = 0;
    for _ in 0..60 {
        let n = 2 + random.below(7);
        if let Some(query) = pattern(&parts, n, random) {
            let picked = picked(&store, &query);
            if picked.operators.iter().all(|estimate| estimate.rows < 3e4) && n < 5 {
                assert!(same_list(&store, &query, &picked, &mut buffers) > 0, "the pattern has a match");
                compared += 1;
            }
        }
    }
    assert!(compared > 4, "{compared} patterns were run");
}

#[test]
fn a_query_that_is_refused_is_not_picked_for() {
    let store = store(&graph(LARGE, &mut Random::new(7)));
    let statistics = Statistics::of(store.words()).expect("a store");
    let file = packed(&path([ANY; 3], [1, 1]));
    for bytes in [&[][..], &[0x31], &file[..file.len() - 1], &[0xff; 60], &[0; 60]] {
        assert_eq!(pick(store.words(), &statistics, bytes, MAX_WORDS), None);
    }
}

#[test]
fn words_that_are_no_store_have_no_statistics() {
    assert!(Statistics::of(&[]).is_none());
    assert!(Statistics::of(&[4, 0, 0, 0]).is_none());
}
