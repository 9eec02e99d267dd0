//! Files and stores of which some are damaged, for what is refused before anything is found.
use super::graph::Graph;
use super::plan;
use super::query::Query;
use super::random::Random;

/// A store of which a word may be another, and a query file that may be refused for any reason there is.
pub fn store_and_query(r: &Random) -> (Vec<u32>, Vec<u8>) {
    let mut store = Graph::random(r, 7).store();
    let mut query = Query::random(r, 8);
    match r.below(20) {
        0 => query.days[0] = (r.day(), 0),
        1 => query.edges.truncate(1),
        2 => query.pairs = vec![(r.below(8), r.below(8)); 1 + r.below(2)],
        _ => (),
    }
    let mut query = query.file();
    if r.chance(1, 2) {
        r.damage(&mut query);
    }
    if r.chance(1, 2) {
        let at = r.below(store.len());
        store[at] = store[at].wrapping_add([1, 65_536, u32::MAX][r.below(3)]);
    }
    (store, query)
}

/// A query file and one of a plan for it, each of which may be damaged.
pub fn query_and_plan(r: &Random) -> (Vec<u8>, Vec<u8>) {
    let query = Query::random(r, 6);
    let mut operators = plan::random(r, &query);
    if r.chance(1, 2) {
        plan::disturb(r, &query, &mut operators);
    }
    let (mut query, mut plan) = (query.file(), plan::file(&operators));
    if r.chance(1, 3) {
        r.damage(&mut query);
    }
    if r.chance(1, 3) {
        r.damage(&mut plan);
    }
    (query, plan)
}
