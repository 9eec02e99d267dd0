//! A join is picked where it is clearly faster, and not where its bound passes what is lent.
mod common;

use common::same_list;
use picker_bench::graphs::Graph;
use picker_bench::patterns::{packed, ANY};
use picker_bench::picker::query::{Edge, Filter, Query};
use picker_bench::picker::{pick, Operator, Picked, Statistics, MAX_WORDS};
use picker_bench::random::Random;
use rizhavaan::{Buffers, Store};

const LEAVES: usize = 50_000;

/// Leaves on so many hubs; one in so many has label 2, as many label 3.
fn hubs(hubs: usize, rare: usize) -> Store {
    let mut random = Random::new(9);
    let label = |v: usize| match v % rare {
        _ if v < hubs => 4,
        0 => 2,
        1 => 3,
        _ => 1,
    };
    let n = hubs + LEAVES;
    let edges = (hubs..n).map(|leaf| (leaf as u16, 1, random.below(hubs) as u16)).collect();
    let graph = Graph { name: String::new(), labels: (0..n).map(label).collect(), days: vec![0; n], edges };
    Store::load(&graph.file()).expect("an accepted graph")
}

/// Two rare leaves on one hub: an extend goes through a hub's whole list for each leaf, a join through both
/// scans once.
fn two_leaves() -> Query {
    let filters = vec![Filter { label: 2, ..ANY }, ANY, Filter { label: 3, ..ANY }];
    let edges = vec![Edge { from: 0, to: 1, label: 1 }, Edge { from: 2, to: 1, label: 1 }];
    Query::new(filters, edges, Vec::new()).expect("a query")
}

fn has_join(picked: &Picked) -> bool {
    picked.operators.iter().any(|estimate| estimate.operator == Operator::Join)
}

#[test]
fn rare_leaves_on_hubs_are_joined() {
    let (store, query) = (hubs(8, 400), two_leaves());
    let statistics = Statistics::of(store.words()).expect("a store");
    let pick = |lent| pick(store.words(), &statistics, &packed(&query), lent).expect("a plan");
    let joined = pick(MAX_WORDS);
    assert!(has_join(&joined), "{:?}", joined.operators);
    let rows = same_list(&store, &query, &joined, &mut Buffers::new());
    let thought = joined.operators.last().expect("an operator").rows;
    assert!((0.5..2.0).contains(&(thought / rows as f64)), "{thought} of {rows} rows");
    // 50,000 build rows may come by the bound, of two words each.
    assert!(!has_join(&pick(90_000)), "the bound passes what is lent");
    assert!(joined.scratch >= joined.need as u64 && joined.list >= 3 * rows as u64);
}

/// The same pattern on other hubs: the lists of joined plans are the drawn ones.
#[test]
fn joined_plans_list_what_drawn_plans_list() {
    let mut joins = 0;
    for (count, rare) in [(1, 400), (2, 400), (3, 300), (4, 400), (6, 500), (8, 400), (20, 50)] {
        let (store, query) = (hubs(count, rare), two_leaves());
        let statistics = Statistics::of(store.words()).expect("a store");
        let picked = pick(store.words(), &statistics, &packed(&query), MAX_WORDS).expect("a plan");
        assert!(same_list(&store, &query, &picked, &mut Buffers::new()) > 0);
        joins += usize::from(has_join(&picked));
    }
    assert!(joins >= 4, "{joins} plans have a join");
}
