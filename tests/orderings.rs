//! All orderings against those found by trying every list of vertices, in words and scratch of lengths around what they need.
use judge::graph::Graph;
use judge::orderings::{list, plans};
use judge::plan;
use judge::query::Query;
use judge::random::{each, Random};
use judge::worked::{diamond, g, k, triangle};
use judge::{calls, drawn};
use rizhavaan::{Refusal, Store};

/// More rows than any of these runs has.
const MOST: usize = 100_000;

/// Compares what is listed; answers the refusal and the needs, where the orderings are run.
fn compare(r: &Random, store: &[u32], query: &[u8], scratch: usize, room: usize) -> (u32, Vec<usize>) {
    let (want, needs) = list(store, query, scratch, room, MOST).expect("few rows");
    let (refusal, plans, words) = calls::orderings(r, store, query, scratch, room);
    match want {
        Ok(want) => {
            assert_eq!((refusal, &words), (0, &want), "{query:?}");
            assert_eq!(plans as usize, needs.len());
        }
        Err(want) => assert_eq!((refusal, plans), (want, 0), "{query:?}"),
    }
    (refusal, needs)
}

#[test]
fn worked() {
    let store = |graph: &Graph| graph.store();
    each(0..1, |r| {
        let (triangle, diamond) = (triangle().file(), diamond().file());
        assert_eq!(calls::orderings(r, &store(&g()), &triangle, 6, 12), (0, 3, vec![0, 2, 0, 13, 1, 1, 0, 18, 2, 0, 0, 13]));
        let (refusal, plans, words) = calls::orderings(r, &store(&g()), &diamond, 12, 50);
        assert_eq!((refusal, plans), (0, 10));
        assert_eq!(words[..10], [0, 2, 3, 0, 17, 0, 3, 2, 0, 25]);
        // The seventh of K's needs 13 words.
        let (refusal, needs) = compare(r, &store(&k()), &diamond, 12, 50);
        assert_eq!((refusal, needs.iter().position(|&need| need > 12), needs[6]), (20, Some(6), 13));
        assert_eq!(calls::orderings(r, &store(&k()), &diamond, 13, 50).0, 0);
        // Two vertices and so many edges: as many entries of three words, cost 0.
        let edges = Query::new(vec![0, 0], vec![(0, 1, 1), (0, 1, 2), (1, 0, 0)]).file();
        assert_eq!(calls::orderings(r, &store(&g()), &edges, 2, 9), (0, 3, vec![0, 0, 0, 1, 0, 0, 2, 0, 0]));
    });
}

/// Lengths around the words of all entries and around each ordering's need; large queries, damaged ones and damaged stores beside.
#[test]
fn random_graphs_and_queries() {
    let mut seen = [0; 33];
    each(0..1_500, |r| {
        let mut store = Graph::random(r, 8).store();
        let mut query = Query::random(r, if r.chance(1, 8) { 8 } else { 5 }).file();
        if r.chance(1, 16) {
            r.damage(&mut query);
        }
        if r.chance(1, 16) && !store.is_empty() {
            let at = r.below(store.len());
            store[at] ^= 1;
        }
        let (refusal, needs) = compare(r, &store, &query, 1 << 12, 864);
        seen[refusal as usize] += 1;
        if refusal != 0 {
            for (scratch, room) in [(0, 0), (r.below(9), r.below(864))] {
                seen[compare(r, &store, &query, scratch, room).0 as usize] += 1;
            }
            return;
        }
        let words = needs.len() * (1 + usize::from(query[0] >> 4));
        let most = needs.iter().copied().max().unwrap_or(0);
        for room in [0, words - 1, words, words + 1] {
            seen[compare(r, &store, &query, most, room).0 as usize] += 1;
        }
        let mut lengths = needs.clone();
        lengths.sort();
        lengths.dedup();
        for need in lengths {
            for scratch in [need - 1, need] {
                seen[compare(r, &store, &query, scratch, words).0 as usize] += 1;
            }
        }
    });
    for refusal in [0, 6, 7, 19, 20, 31, 32] {
        assert!(seen[refusal] > 0, "{seen:?}");
    }
}

/// The wrapper's orderings have the judge's plans, in order, and the drawn one is among them; the cheapest lists what it lists.
#[test]
fn by_the_wrapper() {
    each(0..300, |r| {
        let graph = Graph::random(r, 8);
        let query = Query::random(r, 5);
        let store = Store::from_words(graph.store());
        let orders: Vec<_> = store.orderings(&query.file()).unwrap().collect();
        let files: Vec<Vec<u8>> = orders.iter().map(|order| order.plan()).collect();
        assert_eq!(files, plans(&query).iter().map(|plan| plan::file(plan)).collect::<Vec<_>>());
        assert!(files.contains(&plan::file(&drawn::plan(&graph, &query))));
    });
    let large = Query::plain(6, &[(0, 1), (1, 2), (2, 3), (3, 4), (4, 5)]).file();
    assert_eq!(Store::from_words(g().store()).orderings(&large).err(), Some(Refusal::OrderingsLarge));
}
