//! Count against the judge's rules, and runs in just the words that it tells.
use judge::calls::{self, Input};
use judge::compare::Case;
use judge::damaged;
use judge::graph::Graph;
use judge::plan::{self, Operator};
use judge::query::Query;
use judge::random::{each, Random};
use judge::worked::{diamond, g, k, triangle};
use rizhavaan::{Buffers, Cache, Record, Refusal, Store, MAX_OPERATORS};
use Operator::{Extend, Join, Scan};

/// Counts in a scratch of so many words: the judge's numbers, or 20 just where the scratch is below the need.
fn compare(r: &Random, case: &Case, scratch: usize) -> u32 {
    let extra = r.below(4);
    let store = [case.graph.store(), r.words(extra)].concat();
    let input = Input { store: &store, query: &case.query.file(), plan: &plan::file(&case.plan), cache: case.cache };
    let want = &case.want;
    let numbers = [want.count as u64, want.cost, want.build, want.probe, want.need as u64];
    let wanted = if scratch < want.need { (20, [0; 5]) } else { (0, numbers) };
    let got = calls::count(r, &input, scratch);
    assert_eq!(got, wanted, "{scratch} words: {:?} {:?} {:?}", case.graph, case.query, case.plan);
    wanted.0
}

/// Scratches around the need, any others, and those at which a run goes another way.
fn compare_lengths(r: &Random, case: &Case) {
    let need = case.want.need;
    let (less, more) = (r.below(need), r.below(50));
    let turns = case.segments().into_iter().flat_map(|segment| segment.turns());
    for scratch in [need, need - 1, need + 1, less, need + more].into_iter().chain(turns) {
        compare(r, case, scratch);
    }
}

#[test]
fn worked_by_hand() {
    let extends = [Scan(2), Extend(0), Extend(3)];
    let joined = [Scan(2), Extend(0), Scan(2), Extend(3), Join];
    each(0..1, |r| {
        for (graph, query, plan) in [
            (g(), triangle(), &[Scan(0), Extend(2)][..]),
            (g(), diamond(), &extends),
            (g(), diamond(), &joined),
            (k(), diamond(), &joined),
        ] {
            for cache in [false, true] {
                let case = Case::new(graph.clone(), query.clone(), plan.to_vec(), cache, 1_000).unwrap();
                for scratch in 0..case.want.need + 4 {
                    compare(r, &case, scratch);
                }
            }
        }
    });
    let store = Store::load(&g().file()).unwrap();
    let count = store.count(&triangle().file(), &plan::file(&[Scan(0), Extend(2)]), Cache::On, &mut [7; 100]).unwrap();
    assert_eq!((count.run.rows, count.run.cost), (2, 13));
}

#[test]
fn random_plans() {
    let (mut rows, mut joins) = (0, 0);
    each(0..20_000, |r| {
        let graph = Graph::random(r, 12);
        let Some(case) = Case::random(r, graph, 8, 3_000) else { return };
        compare_lengths(r, &case);
        rows += case.want.count;
        joins += usize::from(case.want.build + case.want.probe > 0);
    });
    each(0..300, |r| {
        let graph = Graph::random(r, 300);
        let Some(case) = Case::random(r, graph, 5, 30_000) else { return };
        compare_lengths(r, &case);
    });
    assert!(rows > 50_000 && joins > 1_000, "{rows} rows, {joins} joins");
}

/// Files and stores that are refused: those of the plan, then 19, whatever the scratch.
#[test]
fn refused_files() {
    let mut seen = [0; 27];
    each(0..10_000, |r| {
        let (query, plan) = damaged::query_and_plan(r);
        let refusal = Query::read(&query).and_then(|query| plan::read(&query, &plan)).err().unwrap_or(19);
        let count = r.below(40);
        let (store, scratch) = (r.words(count), r.below(30));
        let input = Input { store: &store, query: &query, plan: &plan, cache: true };
        assert_eq!(calls::count(r, &input, scratch), (refusal, [0; 5]));
        seen[refusal as usize] += 1;
    });
    assert!((6..20).filter(|&k| seen[k] > 0).count() >= 12, "{seen:?}");
}

/// A run in just the words that were counted is accepted with the same numbers, and one word less of either is refused; so it is in buffers
/// that grow, whatever they held before.
#[test]
fn a_run_that_fits() {
    let mut buffers = Buffers::new();
    each(0..4_000, |r| {
        let graph = Graph::random(r, 12);
        let Some(case) = Case::random(r, graph, 6, 3_000) else { return };
        let (query, plan) = (case.query.file(), plan::file(&case.plan));
        let store = Store::load(&case.graph.file()).unwrap();
        let cache = if case.cache { Cache::On } else { Cache::Off };
        let counted = store.count_in(&query, &plan, cache, &mut Buffers::new()).unwrap();
        let (words, mut records) = (counted.run.rows * case.query.vertices(), [Record::default(); MAX_OPERATORS]);
        let mut run = |scratch: usize, list: usize| {
            rizhavaan::run(store.words(), &query, &plan, cache, &mut vec![0; scratch], &mut vec![0; list], &mut records)
        };
        assert_eq!(run(counted.need, words), Ok(counted.run));
        assert_eq!(run(counted.need - 1, words), Err(Refusal::ScratchSmall));
        if words > 0 {
            assert_eq!(run(counted.need, words - 1), Err(Refusal::ListSmall));
        }
        let mut short = Buffers::with_words(1, 1);
        for buffers in [&mut buffers, &mut short, &mut Buffers::with_words(1, 0)] {
            let matches = store.run_growing(&query, &plan, cache, buffers).unwrap();
            assert_eq!((matches.words(), matches.cost), (&case.want.rows[..], case.want.cost));
        }
    });
}

#[test]
fn refusals() {
    let store = Store::load(&g().file()).unwrap();
    let (query, plan) = (triangle().file(), plan::file(&[Scan(0), Extend(2)]));
    let scratch = &mut [0; 100];
    assert_eq!(store.count(&query[..1], &plan, Cache::On, scratch), Err(Refusal::QueryShort));
    assert_eq!(store.count(&query, &plan[..1], Cache::On, scratch), Err(Refusal::PlanShort));
    assert_eq!(store.count(&query, &plan, Cache::On, &mut []), Err(Refusal::ScratchSmall));
    let damaged = Store::from_words(store.words()[..3].to_vec());
    assert_eq!(damaged.count(&query, &plan, Cache::On, &mut []), Err(Refusal::StoreDamaged));
    assert_eq!(damaged.count_in(&query, &plan, Cache::On, &mut Buffers::new()), Err(Refusal::StoreDamaged));
}
