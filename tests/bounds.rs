//! The bounds of a plan against the judge's, and runs in just the words that they set aside.
use judge::bounds;
use judge::calls;
use judge::graph::Graph;
use judge::plan::{self, Operator};
use judge::query::Query;
use judge::random::{each, Random};
use judge::worked::{diamond, g, graph, k, triangle};
use rizhavaan::{Buffers, Cache, Record, Refusal, Store, MAX_OPERATORS};
use Operator::{Extend, Join, Scan};

/// Compares the bounds of files as they are; answers the refusal.
fn compare(r: &Random, store: &[u32], query: &[u8], plan: &[u8]) -> u32 {
    let want = Query::read(query)
        .and_then(|read| Ok((plan::read(&read, plan)?, read)))
        .and_then(|(operators, read)| Ok((Graph::of_store(store).ok_or(19u32)?, read, operators)))
        .map(|(graph, query, operators)| bounds::bounds(&graph, &query, &operators));
    let got = calls::bounds(r, store, query, plan);
    match want {
        Ok(want) => assert_eq!(got, (0, want), "{query:?} {plan:?}"),
        Err(refusal) => assert_eq!(got, (refusal, [0; 4]), "{query:?} {plan:?}"),
    }
    got.0
}

fn any_plan(r: &Random, query: &Query) -> Vec<Operator> {
    if r.chance(1, 2) {
        plan::bushy(r, query).unwrap_or_else(|| plan::random(r, query))
    } else {
        plan::random(r, query)
    }
}

#[test]
fn worked_by_hand() {
    let none = graph(0, &[]);
    let extends = [Scan(2), Extend(0), Extend(3)];
    let joined = [Scan(2), Extend(0), Scan(2), Extend(3), Join];
    let p = [Scan(0), Extend(2)];
    let cases: [(&Graph, Query, &[Operator], [u64; 4]); 5] = [
        (&g(), triangle(), &p, [30, 7, 20, 10]),
        (&g(), diamond(), &extends, [80, 13, 60, 20]),
        (&g(), diamond(), &joined, [400, 67, 40, 100]),
        (&k(), diamond(), &extends, [168, 14, 126, 42]),
        (&none, triangle(), &p, [0, 5, 0, 0]),
    ];
    each(0..1, |r| {
        for (graph, query, plan, want) in &cases {
            assert_eq!(bounds::bounds(graph, query, plan), *want);
            assert_eq!(calls::bounds(r, &graph.store(), &query.file(), &plan::file(plan)), (0, *want));
        }
    });
}

/// Random stores, queries and plans, with words past the store's used ones; some plans and stores broken.
#[test]
fn random_plans() {
    let mut seen = [0; 27];
    each(0..20_000, |r| {
        let extra = r.below(4);
        let mut store = [Graph::random(r, 12).store(), r.words(extra)].concat();
        let query = Query::random(r, 8);
        let mut operators = any_plan(r, &query);
        if r.chance(1, 8) {
            plan::disturb(r, &query, &mut operators);
        }
        if r.chance(1, 8) {
            let at = r.below(store.len());
            store[at] ^= 1 << r.below(20);
        }
        seen[compare(r, &store, &query.file(), &plan::file(&operators)) as usize] += 1;
    });
    assert!(seen[0] > 10_000 && seen[19] > 500, "{seen:?}");
}

/// Joins of joins over a graph of many edges: the product of the sides passes 64 bits.
#[test]
fn bounds_past_64_bits() {
    let mut past = 0;
    let pairs: Vec<(u16, u16)> = (0..200).flat_map(|a| (0..200).map(move |b| (a, b))).filter(|(a, b)| a != b).collect();
    let store = graph(200, &pairs).store();
    each(0..2_000, |r| {
        let query = Query::random(r, 8);
        let Some(operators) = plan::bushy(r, &query) else { return };
        compare(r, &store, &query.file(), &plan::file(&operators));
        let (_, bounds) = calls::bounds(r, &store, &query.file(), &plan::file(&operators));
        past += usize::from(bounds[0] == u64::MAX);
    });
    assert!(past > 20, "{past}");
}

/// A run in just these words, and no fewer of either, is accepted.
#[test]
fn set_aside() {
    let mut ran = 0;
    each(0..10_000, |r| {
        let store = Store::load(&Graph::random(r, 10).file()).unwrap();
        let query = Query::random(r, 6);
        let (query, plan) = (query.file(), plan::file(&any_plan(r, &query)));
        let bounds = store.bounds(&query, &plan).unwrap();
        if !bounds.below_cap() || bounds.list_words > 1 << 16 || bounds.scratch_words > 1 << 16 {
            return;
        }
        let (mut scratch, mut list) = (vec![0; bounds.scratch_words as usize], vec![0; bounds.list_words as usize]);
        let mut records = [Record::default(); MAX_OPERATORS];
        for cache in [Cache::Off, Cache::On] {
            let matches = store.run(&query, &plan, cache, &mut scratch, &mut list, &mut records).unwrap();
            assert!(matches.cost <= bounds.cost);
            ran += 1;
        }
        assert!(store.run_growing(&query, &plan, Cache::On, &mut Buffers::new()).is_ok());
    });
    assert!(ran > 5_000, "{ran}");
}

#[test]
fn refusals() {
    let store = Store::load(&g().file()).unwrap();
    let (query, plan) = (triangle().file(), plan::file(&[Scan(0), Extend(2)]));
    assert_eq!(store.bounds(&query[..1], &plan), Err(Refusal::QueryShort));
    assert_eq!(store.bounds(&query, &plan[..1]), Err(Refusal::PlanShort));
    let damaged = Store::from_words(store.words()[..3].to_vec());
    assert_eq!(damaged.bounds(&query, &plan), Err(Refusal::StoreDamaged));
    assert_eq!(damaged.bounds(&query, &plan[..1]), Err(Refusal::PlanShort));
}
