//! Drawn plans against the judge's, in bytes of every length, and their rows against matches found by backtracking.
use judge::calls::{self, Input};
use judge::damaged;
use judge::drawn;
use judge::graph::Graph;
use judge::matcher::Matcher;
use judge::plan::{self, Operator};
use judge::query::{Query, QueryEdge};
use judge::random::{each, Random};
use judge::worked::{diamond, g, graph, triangle};
use rizhavaan::{Buffers, Cache, Refusal, Store};
use Operator::{Extend, Scan};

/// Compares what is drawn in so many bytes; answers the refusal.
fn compare(r: &Random, store: &[u32], query: &[u8], room: usize) -> u32 {
    let want = Query::read(query)
        .and_then(|query| Ok((Graph::of_store(store).ok_or(19u32)?, query)))
        .map(|(graph, query)| plan::file(&drawn::plan(&graph, &query)))
        .and_then(|plan| if room < plan.len() { Err(24) } else { Ok(plan) });
    let got = calls::draw_plan(r, store, query, room);
    match want {
        Ok(want) => assert_eq!(got, (0, want), "{query:?}"),
        Err(refusal) => assert_eq!(got, (refusal, Vec::new()), "{query:?}"),
    }
    got.0
}

/// Bytes from none to beyond the need, with words past the store's used ones.
#[test]
fn random_graphs_and_queries() {
    let mut seen = [0; 27];
    each(0..20_000, |r| {
        let extra = r.below(4);
        let store = [Graph::random(r, 12).store(), r.words(extra)].concat();
        let query = Query::random(r, 8).file();
        for room in 0..9 {
            seen[compare(r, &store, &query, room) as usize] += 1;
        }
    });
    assert!(seen[0] > 50_000 && seen[24] > 30_000, "{seen:?}");
    assert_eq!(seen.iter().sum::<usize>(), seen[0] + seen[24], "no other refusal");
}

/// Every set of pairs of at most six vertices, as a query of edges of random directions and labels: where it is connected, a plan is drawn
/// whatever the graph, and passes the check; where it is not, the answer is 11. No query gets 23, which was for a connected one that
/// has no next vertex.
#[test]
fn no_query_gets_23() {
    let mut seen = [0; 25];
    each(0..1, |r| {
        for n in 2..7 {
            let pairs: Vec<(usize, usize)> = (1..n).flat_map(|v| (0..v).map(move |u| (u, v))).collect();
            for set in 1..1u32 << pairs.len() {
                let mut edges = Vec::new();
                for (_, &(u, v)) in pairs.iter().enumerate().filter(|(i, _)| set >> i & 1 == 1) {
                    let (from, to) = if r.chance(1, 2) { (u, v) } else { (v, u) };
                    edges.push((from, to, r.below(4) as u8));
                }
                let query = Query::new(vec![0; n], edges).file();
                let (refusal, drawn) = calls::draw_plan(r, &Graph::random(r, 6).store(), &query, 6);
                seen[refusal as usize] += 1;
                if refusal == 0 {
                    assert_eq!(calls::check_plan(r, &query, &drawn), (0, n as u64 - 1), "{query:?}");
                }
            }
        }
    });
    // The connected labelled graphs of 2 to 6 vertices are 1, 4, 38, 728 and 26,704.
    assert_eq!(seen[0], 1 + 4 + 38 + 728 + 26_704);
    assert_eq!(seen.iter().sum::<usize>(), seen[0] + seen[11], "{seen:?}");
}

/// Queries of 8 vertices and as many edges as go, in which ties are common.
#[test]
fn large_queries() {
    each(0..5_000, |r| {
        let graph = Graph::random(r, 30);
        let n = 6 + r.below(3);
        let mut edges: Vec<QueryEdge> = (1..n).map(|v| (r.below(v), v, r.below(4) as u8)).collect();
        for _ in 0..r.below(40) {
            let (from, to) = (r.below(n), r.below(n));
            if from != to {
                edges.push((from, to, r.below(4) as u8));
            }
        }
        let mut query = Query::new(vec![0; n], edges);
        while query.edges.len() > 24 {
            query.edges.pop();
        }
        compare(r, &graph.store(), &query.file(), 6);
    });
}

/// A drawn plan passes the check, and its rows are the matches.
#[test]
fn rows_of_drawn_plans() {
    let (mut rows, mut skipped) = (0, 0);
    each(0..36_000, |r| {
        let graph = Graph::random(r, 12);
        let query = Query::random(r, 6);
        let every: Vec<usize> = (0..query.vertices()).collect();
        let Some(mut want) = Matcher::new(&graph).matches(&query, &every, 3_000) else {
            skipped += 1;
            return;
        };
        let store = Store::load(&graph.file()).unwrap();
        let plan = store.draw_plan(&query.file()).unwrap();
        assert_eq!(calls::check_plan(r, &query.file(), &plan), (0, query.vertices() as u64 - 1));
        let mut buffers = Buffers::new();
        let cache = if r.chance(1, 2) { Cache::On } else { Cache::Off };
        let matches = store.run_drawn(&query.file(), cache, &mut buffers).unwrap();
        let mut got: Vec<Vec<u16>> =
            matches.rows().map(|row| row.iter().map(|&x| u16::try_from(x).unwrap()).collect()).collect();
        want.sort();
        got.sort();
        assert_eq!(got, want, "{graph:?} {query:?} {plan:?}");
        rows += want.len();
    });
    assert!(rows > 100_000 && skipped < 400, "{rows} rows, {skipped} skipped");
}

/// Damaged queries are refused before the store is looked at, damaged stores before the bytes.
#[test]
fn damaged_files_and_stores() {
    let mut seen = [0; 27];
    each(0..30_000, |r| {
        let (store, query) = damaged::store_and_query(r);
        let room = r.below(8);
        seen[compare(r, &store, &query, room) as usize] += 1;
    });
    assert!([0, 6, 7, 8, 9, 10, 11, 19, 24, 25, 26].iter().all(|&k| seen[k] > 20), "{seen:?}");
}

/// Words and bytes of any kind.
#[test]
fn bytes_of_any_kind() {
    each(0..20_000, |r| {
        let count = r.below(40);
        let store = r.words(count);
        let query: Vec<u8> = (0..r.below(60)).map(|_| r.next() as u8).collect();
        let room = r.below(8);
        compare(r, &store, &query, room);
        compare(r, &Graph::random(r, 5).store(), &query, room);
    });
}

/// The worked files, ties, and labels with more edges than a byte or two count.
#[test]
fn worked_plans() {
    let draw = |graph: &Graph, query: &Query| Store::load(&graph.file()).unwrap().draw_plan(&query.file());
    assert_eq!(draw(&g(), &triangle()), Ok(plan::file(&[Scan(0), Extend(2)])));
    assert_eq!(draw(&g(), &diamond()), Ok(plan::file(&[Scan(0), Extend(2), Extend(3)])));
    assert_eq!(draw(&graph(0, &[]), &triangle()), Ok(plan::file(&[Scan(0), Extend(2)])));
    // Label 3 has 70,000 edges, label 2 one, label 1 none; 0 has them all.
    let edges = (0..70_000u32).map(|i| ((i / 300) as u16, 3, (i % 300) as u16)).chain([(5, 2, 6)]).collect();
    let large = Graph::new(vec![0; 300], edges);
    let pair = |labels: &[u8]| Query::new(vec![0; 2], labels.iter().map(|&l| (0, 1, l)).collect());
    assert_eq!(draw(&large, &pair(&[0, 3])), Ok(plan::file(&[Scan(1)])));
    assert_eq!(draw(&large, &pair(&[0, 2, 3])), Ok(plan::file(&[Scan(1)])));
    assert_eq!(draw(&large, &pair(&[0, 1, 2, 3])), Ok(plan::file(&[Scan(1)])));
    assert_eq!(draw(&large, &pair(&[0, 3, 4, 5])), Ok(plan::file(&[Scan(2)])));
    assert_eq!(draw(&large, &pair(&[0])), Ok(plan::file(&[Scan(0)])));
    // Vertex 3 has two edges to the covered ones, one each way; 2 has one.
    let query = Query::plain(4, &[(0, 1), (1, 2), (3, 0), (1, 3)]);
    assert_eq!(draw(&g(), &query), Ok(plan::file(&[Scan(0), Extend(3), Extend(2)])));
}

/// The wrapper: refusals as it gives them, and a plan in bytes of the caller's.
#[test]
fn wrapper() {
    let (store, query) = (Store::load(&g().file()).unwrap(), triangle().file());
    let mut bytes = [7; 5];
    assert_eq!(rizhavaan::draw_plan_into(store.words(), &query, &mut bytes), Ok(3));
    assert_eq!(bytes, [0x10, 0x05, 0x00, 7, 7]);
    let mut short = [7; 2];
    assert_eq!(rizhavaan::draw_plan_into(store.words(), &query, &mut short), Err(Refusal::PlanBytes));
    assert_eq!(short, [7; 2]);
    assert_eq!(store.draw_plan(&query[..1]), Err(Refusal::QueryShort));
    let damaged = Store::from_words(vec![1; 8]);
    assert_eq!(damaged.draw_plan(&query), Err(Refusal::StoreDamaged));
    assert_eq!(damaged.run_drawn(&query, Cache::On, &mut Buffers::new()), Err(Refusal::StoreDamaged));
    let longest = Query::any(8, &[(0, 1), (0, 2), (0, 3), (0, 4), (0, 5), (0, 6), (0, 7)]).file();
    assert_eq!(store.draw_plan(&longest).map(|plan| plan.len()), Ok(rizhavaan::MAX_DRAWN_BYTES));
    let plan = store.draw_plan(&query).unwrap();
    let input = Input { store: store.words(), query: &query, plan: &plan, cache: true };
    each(0..1, |r| assert_eq!(calls::run(r, &input, 32, 6).list, [0, 1, 2, 1, 2, 3]));
}
