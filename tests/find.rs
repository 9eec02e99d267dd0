//! Find against Draw plan and then Run, and against the judge's rules: on every input, refused ones too.
use judge::calls::{self, Input, Ran};
use judge::compare::Case;
use judge::damaged;
use judge::drawn;
use judge::found::{find, Lengths};
use judge::graph::Graph;
use judge::plan;
use judge::query::Query;
use judge::random::{each, Random};
use judge::worked::{g, triangle};
use rizhavaan::{Buffers, Cache, Record, Refusal, Store, MAX_DRAWN_BYTES, MAX_OPERATORS};

/// Find does as Draw plan does and then Run on what it drew; answers its refusal.
fn compare(r: &Random, store: &[u32], query: &[u8], cache: bool, lengths: Lengths) -> u32 {
    let (refusal, drawn) = calls::draw_plan(r, store, query, lengths.plan);
    let want = match refusal {
        0 => {
            let input = Input { store, query, plan: &drawn, cache };
            calls::run_recording(r, &input, lengths.scratch, lengths.list, lengths.records)
        }
        _ => Ran { refusal, rows: 0, cost: 0, build: 0, probe: 0, list: Vec::new(), records: Vec::new() },
    };
    let got = find(r, store, query, &drawn, cache, lengths);
    assert_eq!(got, want, "{lengths:?}: {query:?}");
    got.refusal
}

/// Lengths that serve the longest plan, of so many words.
fn ample(words: usize) -> Lengths {
    Lengths { plan: MAX_DRAWN_BYTES, scratch: words, list: words, records: MAX_OPERATORS }
}

/// The judge's numbers, rows and records, in a scratch and a list of just the words that they take; a word or a record less is refused.
#[test]
fn as_the_judge_has_it() {
    let (mut rows, mut skipped) = (0, 0);
    each(0..10_000, |r| {
        let graph = Graph::random(r, 12);
        let query = Query::random(r, 6);
        let plan = drawn::plan(&graph, &query);
        let Some(case) = Case::new(graph, query, plan, r.chance(1, 2), 3_000) else {
            skipped += 1;
            return;
        };
        let (store, query, plan) = (case.graph.store(), case.query.file(), plan::file(&case.plan));
        let want = case.want.clone();
        let fits = Lengths { plan: plan.len(), scratch: want.need, list: want.rows.len(), records: want.records.len() };
        let got = find(r, &store, &query, &plan, case.cache, fits);
        let accepted = Ran {
            refusal: 0,
            rows: want.count as u64,
            cost: want.cost,
            build: want.build,
            probe: want.probe,
            list: want.rows,
            records: want.records,
        };
        assert_eq!(got, accepted, "{:?} {:?}", case.graph, case.query);
        rows += want.count;
        let refused = |drawn: &[u8], lengths: Lengths| find(r, &store, &query, drawn, case.cache, lengths).refusal;
        assert_eq!(refused(&[], Lengths { plan: fits.plan - 1, records: 0, scratch: 0, list: 0 }), 24);
        assert_eq!(refused(&plan, Lengths { records: fits.records - 1, scratch: 0, list: 0, ..fits }), 22);
        assert_eq!(refused(&plan, Lengths { scratch: fits.scratch - 1, list: 0, ..fits }), 20);
        if fits.list > 0 {
            assert_eq!(refused(&plan, Lengths { list: fits.list - 1, ..fits }), 21);
        }
    });
    assert!(rows > 30_000 && skipped < 200, "{rows} rows, {skipped} skipped");
}

/// Every length of each buffer, with words past the store's used ones.
#[test]
fn as_draw_plan_and_run() {
    let mut seen = [0; 31];
    each(0..30_000, |r| {
        let extra = r.below(4);
        let store = [Graph::random(r, 10).store(), r.words(extra)].concat();
        let query = Query::random(r, 6).file();
        let most = [8, 40, 400, 4_000][r.below(4)];
        let lengths = Lengths { plan: r.below(9), scratch: r.below(most), list: r.below(most), records: r.below(10) };
        let cache = r.chance(1, 2);
        seen[compare(r, &store, &query, cache, lengths) as usize] += 1;
        seen[compare(r, &store, &query, cache, ample(most)) as usize] += 1;
    });
    assert!([0, 20, 21, 22, 24].iter().all(|&k| seen[k] > 1_000), "{seen:?}");
}

/// Damaged queries are refused before the store is looked at, damaged stores before the bytes, these before the records.
#[test]
fn damaged_files_and_stores() {
    let mut seen = [0; 31];
    each(0..30_000, |r| {
        let (store, query) = damaged::store_and_query(r);
        let lengths = Lengths { plan: r.below(8), scratch: r.below(200), list: r.below(200), records: r.below(9) };
        let cache = r.chance(1, 2);
        seen[compare(r, &store, &query, cache, lengths) as usize] += 1;
    });
    let every = [0, 6, 7, 8, 9, 10, 11, 19, 20, 21, 22, 24, 25, 26];
    assert!(every.iter().all(|&k| seen[k] > 20), "{seen:?}");
    assert_eq!(seen.iter().sum::<usize>(), every.iter().map(|&k| seen[k]).sum::<usize>(), "no other refusal");
}

/// Words and bytes of any kind.
#[test]
fn bytes_of_any_kind() {
    each(0..10_000, |r| {
        let count = r.below(40);
        let store = r.words(count);
        let query: Vec<u8> = (0..r.below(60)).map(|_| r.next() as u8).collect();
        let lengths = Lengths { plan: r.below(8), ..ample(50) };
        compare(r, &store, &query, true, lengths);
        compare(r, &Graph::random(r, 5).store(), &query, false, lengths);
    });
}

/// Buffers that grow, whatever they held before, are given the plan, the rows and the records of the drawn plan's run.
#[test]
fn in_buffers_that_grow() {
    let mut kept = Buffers::new();
    each(0..4_000, |r| {
        let graph = Graph::random(r, 14);
        let store = Store::load(&graph.file()).unwrap();
        let query = Query::random(r, 6).file();
        let plan = store.draw_plan(&query).unwrap();
        let mut other = Buffers::new();
        let Ok(want) = store.run_growing(&query, &plan, Cache::On, &mut other) else { return };
        let want_work: Vec<_> = want.work().collect();
        let (mut short, mut listless) = (Buffers::with_words(1, 1), Buffers::with_words(1, 0));
        for buffers in [&mut kept, &mut short, &mut listless, &mut Buffers::new()] {
            let found = store.run_drawn(&query, Cache::On, buffers).unwrap();
            assert_eq!((found.words(), found.cost), (want.words(), want.cost), "{graph:?} {query:?}");
            assert_eq!(found.work().collect::<Vec<_>>(), want_work);
        }
    });
}

/// The wrapper: rows, plan and refusals as it gives them.
#[test]
fn wrapper() {
    let (store, query) = (Store::load(&g().file()).unwrap(), triangle().file());
    let (mut plan, mut records) = ([7; 5], [Record::default(); 2]);
    let (scratch, list) = (&mut [7; 32], &mut [7; 8]);
    let matches = store.find(&query, &mut plan, Cache::On, scratch, list, &mut records).unwrap();
    assert_eq!(matches.rows().collect::<Vec<_>>(), [[0, 1, 2], [1, 2, 3]]);
    assert_eq!((matches.cost, matches.work().count()), (13, 2));
    assert_eq!((plan, &list[6..]), ([0x10, 0x05, 0x00, 7, 7], &[7, 7][..]));
    let damaged = Store::from_words(store.words()[..3].to_vec());
    for (store, query, room, words, want) in [
        (&store, &query[..1], 0, 0, Refusal::QueryShort),
        (&damaged, &query[..], 0, 0, Refusal::StoreDamaged),
        (&store, &query[..], 2, 0, Refusal::PlanBytes),
        (&store, &query[..], 3, 0, Refusal::ScratchSmall),
        (&store, &query[..], 3, 40, Refusal::ListSmall),
    ] {
        let (mut plan, mut scratch, mut list) = (vec![9; room], vec![0; words], [9; 5]);
        let found = store.find(query, &mut plan, Cache::Off, &mut scratch, &mut list, &mut records);
        assert_eq!(found, Err(want));
        assert_eq!(list, [9; 5]);
        assert_eq!(plan, if room == 3 { vec![0x10, 0x05, 0x00] } else { vec![9; room] });
    }
    let few = store.find(&query, &mut plan, Cache::On, &mut [], &mut [], &mut records[..1]);
    assert_eq!(few, Err(Refusal::RecordsShort));
    assert_eq!(damaged.run_drawn(&query, Cache::On, &mut Buffers::new()), Err(Refusal::StoreDamaged));
}
