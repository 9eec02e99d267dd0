//! Every picked plan passes Check plan and lists what the drawn plan lists.
mod common;

use common::{graph, picked, query, same_list, Shape};
use picker_bench::patterns::pattern;
use picker_bench::picker::store::Store as Parts;
use picker_bench::random::Random;
use rizhavaan::{Buffers, Store};

/// 20,000 random queries over 4,000 random graphs, from none to 40 vertices.
#[test]
fn picked_plans_list_what_drawn_plans_list() {
    let mut random = Random::new(38);
    let mut buffers = Buffers::new();
    let (mut rows, mut with_rows) = (0, 0);
    for _ in 0..4_000 {
        let vertices = random.one_of(&[0, 1, 2, 3, 5, 8, 13, 20, 30, 40]);
        let shape = Shape {
            vertices,
            edges: random.below(5 * vertices / 2 + 2),
            vertex_labels: random.one_of(&[1, 2, 4, 300]),
            edge_labels: random.one_of(&[1, 2, 5, 255]),
            days: random.one_of(&[1, 20, 60_000]),
        };
        let store = Store::load(&graph(shape, &mut random).file()).expect("an accepted graph");
        let parts = Parts::of(store.words()).expect("a store");
        for i in 0..5 {
            // Two of five are read off the graph, so that they have a match, if it has an edge.
            let n = 2 + random.below(vertices.clamp(2, 8) - 1);
            let read = if i < 2 && store.edges() > 0 { pattern(&parts, n, &mut random) } else { None };
            let query = read.unwrap_or_else(|| query(shape, &mut random));
            let picked = picked(&store, &query);
            let found = same_list(&store, &query, &picked, &mut buffers);
            rows += found;
            with_rows += usize::from(found > 0);
        }
    }
    println!("{rows} rows, {with_rows} queries with rows");
    assert!(with_rows > 4_000, "{with_rows} queries have rows");
}
