//! Statistics, held to counts over the edges one by one.
mod common;

use common::{graph, Shape};
use picker_bench::picker::query::Filter;
use picker_bench::picker::store::{Direction, Store as Parts, SPAN};
use picker_bench::picker::Statistics;
use picker_bench::random::Random;
use rizhavaan::Store;

#[test]
fn counts_by_labels_are_those_of_the_edges() {
    let mut random = Random::new(3);
    for _ in 0..300 {
        let vertices = 1 + random.below(80);
        let (vertex_labels, edge_labels) = (random.one_of(&[1, 3, 12]), random.one_of(&[1, 4]));
        let shape = Shape { vertices, edges: 5 * vertices, vertex_labels, edge_labels, days: 9 };
        let graph = graph(shape, &mut random);
        let store = Store::load(&graph.file()).expect("an accepted graph");
        let statistics = Statistics::of(store.words()).expect("a store");
        for _ in 0..40 {
            let label = random.below(edge_labels + 2) as u32;
            let [source, target] = [(); 2].map(|()| random.below(vertex_labels + 1) as u32);
            let fits = |asked: u32, v: u16| asked == 0 || u32::from(graph.labels[usize::from(v)]) == asked;
            let count = |test: &dyn Fn(u16, u16) -> bool| {
                let all = graph.edges.iter().filter(|edge| label == 0 || u32::from(edge.1) == label);
                all.filter(|edge| test(edge.0, edge.2)).count() as f64
            };
            let between = count(&|s, t| fits(source, s) && fits(target, t));
            assert_eq!(statistics.edges_between(label, source, target), between);
            let (from, to) = (count(&|s, _| fits(source, s)), count(&|_, t| fits(source, t)));
            assert_eq!(statistics.edges_at(Direction::Forward, label, source), from);
            assert_eq!(statistics.edges_at(Direction::Backward, label, source), to);
        }
    }
}

#[test]
fn fitting_vertices_are_those_that_fit() {
    let mut random = Random::new(4);
    for _ in 0..300 {
        let vertices = random.below(80);
        let shape = Shape { vertices, edges: 0, vertex_labels: 4, edge_labels: 1, days: random.one_of(&[1, 9]) };
        let store = Store::load(&graph(shape, &mut random).file()).expect("an accepted graph");
        let parts = Parts::of(store.words()).expect("a store");
        let statistics = Statistics::of(store.words()).expect("a store");
        for _ in 0..20 {
            let first = random.below(10) as u32;
            let last = if random.percent(50) { 65_535 } else { first + random.below(5) as u32 };
            let filter = Filter { label: random.below(6) as u32, first, last };
            let mut found: Vec<u32> = statistics.fitting(&parts, &filter).iter().map(|&x| x % SPAN).collect();
            found.sort_unstable();
            let fits: Vec<u32> = (0..vertices as u32).filter(|&v| parts.fits(&filter, v)).collect();
            assert_eq!(found, fits);
        }
    }
}

/// Classes that several labels share give shares of the right sum, and never more than there is.
#[test]
fn more_labels_than_classes() {
    let mut random = Random::new(5);
    let shape = Shape { vertices: 2_000, edges: 6_000, vertex_labels: 600, edge_labels: 1, days: 1 };
    let graph = graph(shape, &mut random);
    let store = Store::load(&graph.file()).expect("an accepted graph");
    let statistics = Statistics::of(store.words()).expect("a store");
    // Label 0 stands for any, so what its own vertices have is the rest.
    let of_zero = graph.edges.iter().filter(|edge| graph.labels[usize::from(edge.0)] == 0).count() as f64;
    let sum: f64 = (1..600).map(|label| statistics.edges_at(Direction::Forward, 1, label)).sum();
    let all = graph.edges.len() as f64;
    assert!((sum + of_zero - all).abs() < 0.05 * all, "{sum} and {of_zero} of {all}");
    assert_eq!(statistics.edges_at(Direction::Forward, 1, 0), all);
    assert_eq!(statistics.edges_at(Direction::Forward, 1, 601), 0.0);
}
