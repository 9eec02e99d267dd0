//! Estimates that are no guesses: over small graphs every sample is whole, and bounds are kept whatever is
//! lent.
mod common;

use common::{graph, picked, query, Shape};
use picker_bench::patterns::{orderings, packed};
use picker_bench::picker::need::Bounds;
use picker_bench::picker::store::Store as Parts;
use picker_bench::picker::{estimate, pack, pick, unpack, Operator, Statistics};
use picker_bench::random::Random;
use rizhavaan::{Buffers, Cache, Store};

/// Rows up to which a sample holds all, and entries up to which all are looked at.
const WHOLE: u64 = 32;
const LOOKED_AT: usize = 14;

#[test]
fn over_small_graphs_the_rows_of_every_operator_are_exact() {
    let mut random = Random::new(7);
    let mut buffers = Buffers::new();
    let mut compared = 0;
    for _ in 0..3_000 {
        let shape = Shape {
            vertices: 2 + random.below(10),
            edges: random.below(LOOKED_AT),
            vertex_labels: random.one_of(&[1, 2, 3]),
            edge_labels: random.one_of(&[1, 2]),
            days: 3,
        };
        let store = Store::load(&graph(shape, &mut random).file()).expect("an accepted graph");
        let statistics = Statistics::of(store.words()).expect("a store");
        let query = query(shape, &mut random);
        let file = packed(&query);
        let all = orderings(&query);
        let plan = &all[random.below(all.len())];
        let estimates = [
            estimate(store.words(), &statistics, &file, &pack(plan)).expect("estimates"),
            picked(&store, &query),
        ];
        for thought in estimates {
            if thought.operators.iter().any(|estimate| estimate.operator == Operator::Join) {
                continue;
            }
            let run = store.run_growing(&file, &thought.plan, Cache::On, &mut buffers).expect("a run");
            let rows: Vec<u64> = run.work().map(|work| work.rows).collect();
            if rows.iter().all(|&rows| rows <= WHOLE) {
                let thought: Vec<f64> = thought.operators.iter().map(|estimate| estimate.rows).collect();
                let rows: Vec<f64> = rows.iter().map(|&rows| rows as f64).collect();
                assert_eq!(thought, rows, "{query:?}, {plan:?}");
                compared += 1;
            }
        }
    }
    assert!(compared > 3_000, "{compared} runs were compared");
}

#[test]
fn no_plan_may_pass_what_is_lent_while_another_does_not() {
    let mut random = Random::new(11);
    let (mut within, mut beyond) = (0, 0);
    for _ in 0..1_500 {
        let vertices = 2 + random.below(60);
        let shape = Shape { vertices, edges: 4 * vertices, vertex_labels: 2, edge_labels: 2, days: 3 };
        let store = Store::load(&graph(shape, &mut random).file()).expect("an accepted graph");
        let statistics = Statistics::of(store.words()).expect("a store");
        let query = query(shape, &mut random);
        let parts = Parts::of(store.words()).expect("a store");
        let mut bounds = Bounds::new(parts, &statistics, &query);
        let lent = random.below(80) as u64;
        let picked = pick(store.words(), &statistics, &packed(&query), lent).expect("a plan");
        let mine = bounds.need(&unpack(&picked.plan).expect("operators"));
        let least = match query.vertices() <= 5 {
            true => orderings(&query).iter().map(|plan| bounds.need(plan)).min().expect("an ordering"),
            false => bounds.least_ordering().1,
        };
        assert_eq!(least, bounds.least_ordering().1, "{query:?}");
        assert!(mine <= lent || least > lent, "{query:?}: {mine} words, {lent} lent, {least} at least");
        match least <= lent {
            true => within += 1,
            false => beyond += 1,
        }
    }
    assert!(within > 300 && beyond > 300, "{within} fit, {beyond} do not");
}
