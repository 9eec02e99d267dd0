//! Apply changes against the judge's edited graph and its store, and against Load of that graph's file.
use judge::calls::{self, Input, Loaded};
use judge::changes::{self, add, take, Change};
use judge::graph::{Edge, Graph};
use judge::query::Query;
use judge::random::{each, Random};
use rizhavaan::{Refusal, Store};
use std::collections::BTreeSet;

/// Applies a change file into a new store of so many arbitrary words, and compares answer and words, also with those that Load leaves
/// for the edited graph's file; answers the refusal.
fn compare(r: &Random, old: &[u32], file: &[u8], words: usize) -> u32 {
    let before = r.words(words);
    let mut store = before.clone();
    let got = calls::apply_changes(r, old, file, &mut store);
    match changes::apply(old, file, words) {
        Err(refusal) => assert_eq!(got.refusal, refusal),
        Ok(graph) => {
            let (vertices, edges) = (graph.vertices() as u64, graph.edges.len() as u64);
            assert_eq!(got, Loaded { refusal: 0, vertices, edges });
            let used = graph.store_size();
            assert_eq!(store[..used], graph.store());
            assert_eq!(store[used..], before[used..], "words past the used ones are changed");
            let mut loaded = before;
            assert_eq!(calls::load(r, &graph.file(), &mut loaded), got);
            assert_eq!(loaded, store);
        }
    }
    got.refusal
}

/// A graph, small or large, and changes that apply.
fn random_case(r: &Random) -> (Graph, Vec<Change>) {
    let most = if r.chance(1, 10) { 60 } else { 8 };
    let graph = Graph::random(r, most);
    let changes = changes::random_many(r, &graph);
    (graph, changes)
}

/// Words around the need.
fn random_words(r: &Random, need: usize) -> usize {
    match r.below(4) {
        0 => need,
        1 => need - 1,
        2 => need + 1 + r.below(9),
        _ => r.below(2 * need),
    }
}

/// Files that apply, of changes few and many beside the edges, none and all; with words past the used ones of the old store.
#[test]
fn random_changes() {
    let mut seen = [0; 6];
    let (mut none, mut few, mut many, mut emptied, mut same) = (0, 0, 0, 0, 0);
    each(0..40_000, |r| {
        let (graph, changes) = random_case(r);
        let edited = changes::edited(&graph, &changes).unwrap();
        let (k, m) = (changes.len(), edited.edges.len());
        none += usize::from(k == 0);
        few += usize::from(k > 0 && k * k <= m);
        many += usize::from(k * k > m);
        emptied += usize::from(k > 0 && m == 0);
        same += usize::from(k > 0 && m == graph.edges.len());
        let extra = r.below(4);
        let old = [graph.store(), r.words(extra)].concat();
        let words = random_words(r, edited.store_size());
        seen[compare(r, &old, &changes::file(&changes), words) as usize] += 1;
    });
    assert!(seen[0] > 15_000 && seen[5] > 10_000, "{seen:?}");
    assert_eq!(seen[0] + seen[5], 40_000, "no other refusal");
    let kinds = [none, few, many, emptied, same];
    assert!(kinds.iter().all(|&count| count > 1_000), "each kind is met often: {kinds:?}");
}

/// As many changes as still are few, and one more: the square of their number is at most that of the edges, or just above it.
#[test]
fn as_many_as_are_few() {
    let mut seen = [0; 2];
    each(0..4_000, |r| {
        let graph = Graph::random(r, 60);
        let few = (0..).take_while(|k| k * k <= graph.edges.len()).count();
        let taken = r.below(few + 1);
        let changes = changes::random(r, &graph, taken, few + 1 - taken);
        let edited = changes::edited(&graph, &changes).unwrap();
        let (k, m) = (changes.len(), edited.edges.len());
        if (k + 1) * (k + 1) > m && m > k.saturating_sub(1) * k.saturating_sub(1) {
            seen[usize::from(k * k <= m)] += 1;
            assert_eq!(compare(r, &graph.store(), &changes::file(&changes), edited.store_size()), 0);
        }
    });
    assert!(seen.iter().all(|&count| count > 300), "{seen:?}");
}

/// Every list of changes of up to three edges over a graph of two vertices and two labels, whether they apply or not.
#[test]
fn every_small_file() {
    let every: Vec<Edge> = (0..8).map(|i| (i / 4, 1 + (i / 2 % 2) as u8, i % 2)).collect();
    let mut seen = [0; 30];
    each(0..1, |r| {
        for present in 0..256 {
            let edges = (0..8).filter(|i| present >> i & 1 == 1).map(|i| every[i]).collect();
            let graph = Graph::new(vec![3, 0], edges).dated(vec![0, 7]);
            let old = graph.store();
            for chosen in (0..256u32).filter(|set| set.count_ones() <= 3) {
                for added in 0..8 {
                    let edges = (0..8).filter(|i| chosen >> i & 1 == 1).map(|i| every[i]);
                    let bits = edges.enumerate().map(|(i, edge)| Change { adds: added >> i & 1 == 1, edge });
                    let changes: Vec<Change> = bits.collect();
                    let words = 4 + 4 * 2 + 2 * (graph.edges.len() + changes.len());
                    seen[compare(r, &old, &changes::file(&changes), words) as usize] += 1;
                }
            }
        }
    });
    assert!(seen[0] > 30_000 && seen[28] > 30_000, "{seen:?}");
}

/// Changes that do not apply, in any order, out of their bounds and twice; damaged files, damaged old stores.
#[test]
fn damaged_files_and_stores() {
    let mut seen = [0; 30];
    each(0..60_000, |r| {
        let (graph, mut changes) = random_case(r);
        let n = graph.vertices();
        for _ in 0..r.below(3) {
            if changes.is_empty() {
                break;
            }
            let at = r.below(changes.len());
            match r.below(7) {
                0 | 1 => changes[at].adds = !changes[at].adds,
                2 => changes[at].edge.0 = (n + r.below(2)) as u16,
                3 => changes[at].edge.2 = (n + r.below(2)) as u16,
                4 => changes[at].edge.1 = 0,
                5 => changes.insert(at, changes[at]),
                _ => {
                    let other = r.below(changes.len());
                    changes.swap(at, other);
                }
            }
        }
        let mut file = changes::file(&changes);
        let mut old = graph.store();
        if r.chance(1, 4) {
            r.damage(&mut file);
        }
        if r.chance(1, 6) {
            let at = r.below(old.len());
            old[at] = old[at].wrapping_add([1, 65_536, u32::MAX][r.below(3)]);
        }
        let words = random_words(r, 4 + 4 * n + 2 * (graph.edges.len() + changes.len() / 2));
        seen[compare(r, &old, &file, words) as usize] += 1;
    });
    assert!([0, 5, 19, 27, 28].iter().all(|&refusal| seen[refusal] > 2_000), "each answer is met often: {seen:?}");
}

#[test]
fn every_bit_and_every_length_of_a_file() {
    each(0..40, |r| {
        let graph = Graph::random(r, 5);
        let file = changes::file(&changes::random(r, &graph, 3, 3));
        let (old, words) = (graph.store(), graph.store_size() + 2 * 6);
        for bit in 0..8 * file.len() {
            let mut file = file.clone();
            file[bit / 8] ^= 128 >> (bit % 8);
            compare(r, &old, &file, words);
        }
        for len in 0..file.len() {
            assert_eq!(compare(r, &old, &file[..len], words), 27);
        }
        for byte in [0, 1, 128] {
            assert_eq!(compare(r, &old, &[&file[..], &[byte]].concat(), words), 27);
        }
    });
}

#[test]
fn every_store_length_around_the_need() {
    each(0..100, |r| {
        let graph = Graph::random(r, 6);
        let changes = changes::random_many(r, &graph);
        let (old, file) = (graph.store(), changes::file(&changes));
        let need = changes::edited(&graph, &changes).unwrap().store_size();
        for words in 0..need + 4 {
            assert_eq!(compare(r, &old, &file, words), if words < need { 5 } else { 0 });
        }
        for words in 0..old.len() {
            assert_eq!(compare(r, &old[..words], &file, need), 19, "an old store cut to {words} words");
        }
    });
}

/// Each refusal over the whole file before the next: what a later change does is said before what an earlier one does.
#[test]
fn the_order_of_refusals() {
    let graph = Graph::new(vec![0; 4], vec![(0, 1, 1), (1, 1, 2), (2, 1, 3)]);
    let (present, absent) = ((0, 1, 1), (0, 1, 2));
    let (bad, low, last) = ((3, 0, 0), (0, 1, 0), (3, 1, 3));
    // Two changes that apply, and one of each fault.
    let sound = [take(present), add(last)];
    let refused_28: [&[Change]; 3] = [&[add(present)], &[take(absent)], &[take(present), add(absent), take(last)]];
    let refused_27: [&[Change]; 5] = [
        &[take(present), add(bad)],
        &[add((0, 1, 4))],
        &[add((4, 1, 0))],
        &[take(present), add(present)],
        &[take(present), add(low)],
    ];
    let mut damaged = graph.store();
    damaged[0] += 1;
    each(0..1, |r| {
        let store = graph.store();
        let apply = |old: &[u32], changes: &[Change], words| compare(r, old, &changes::file(changes), words);
        assert_eq!(apply(&store, &sound, 26), 0);
        assert_eq!(apply(&store, &sound, 25), 5);
        for changes in refused_28 {
            for words in [0, 25, 40] {
                assert_eq!(apply(&store, changes, words), 28);
                assert_eq!(apply(&damaged, changes, words), 19);
                // A later change that no graph can have, or that does not ascend.
                for fault in [add(bad), take(bad), add(low)] {
                    assert_eq!(apply(&store, &[changes, &[fault]].concat(), words), 27);
                }
                let long = [changes::file(changes), vec![0]].concat();
                assert_eq!(compare(r, &store, &long, words), 27);
                let mut fill = changes::file(changes);
                *fill.last_mut().unwrap() |= 1;
                assert_eq!(compare(r, &store, &fill, words), 27);
            }
        }
        for changes in refused_27 {
            assert_eq!(apply(&store, changes, 40), 27);
            assert_eq!(apply(&store, changes, 0), 27);
            assert_eq!(apply(&damaged, changes, 40), 19);
        }
        assert_eq!(compare(r, &damaged, &[], 40), 19);
        assert_eq!(compare(r, &store, &[], 40), 27);
    });
}

/// Changes and then their reverse give the old words back.
#[test]
fn the_reverse_gives_the_old_words_back() {
    each(0..20_000, |r| {
        let (graph, changes) = random_case(r);
        let old = graph.store();
        let mut store = vec![0; changes::edited(&graph, &changes).unwrap().store_size()];
        assert_eq!(calls::apply_changes(r, &old, &changes::file(&changes), &mut store).refusal, 0);
        let back = changes::file(&changes::reverse(&changes));
        let mut last = vec![0; old.len()];
        let answer = calls::apply_changes(r, &store, &back, &mut last);
        assert_eq!((answer.refusal, last == old), (0, true), "{graph:?} {changes:?}");
        let mut short = vec![0; old.len() - 1];
        assert_eq!(calls::apply_changes(r, &store, &back, &mut short).refusal, 5);
    });
}

/// A run over the new store, drawn plan and all, does as one over the store that the edited graph's file loads to.
#[test]
fn runs_over_the_new_store() {
    let mut rows = 0;
    each(0..10_000, |r| {
        let graph = Graph::random(r, 12);
        let changes = changes::random_many(r, &graph);
        let edited = changes::edited(&graph, &changes).unwrap();
        let changed = Store::from_words(graph.store()).changed(&changes::file(&changes)).unwrap();
        assert_eq!(changed, Store::load(&edited.file()).unwrap());
        let query = Query::random(r, 5).file();
        let drawn = calls::draw_plan(r, changed.words(), &query, 6);
        assert_eq!(drawn, calls::draw_plan(r, &edited.store(), &query, 6));
        let cache = r.chance(1, 2);
        let run = |store: &[u32]| {
            let input = Input { store, query: &query, plan: &drawn.1, cache };
            calls::run(r, &input, 20_000, 20_000)
        };
        let ran = run(changed.words());
        rows += ran.rows;
        assert_eq!(ran, run(&edited.store()));
    });
    assert!(rows > 20_000, "{rows} rows");
}

/// The counts at their limits: 1,048,575 edges and one more are refused with 29, and an edge more for one less is not. 29 comes
/// after 28 and before 5.
#[test]
fn the_largest_counts() {
    each(0..1, |r| {
        let n = 65_535;
        let mut edges = BTreeSet::new();
        while edges.len() < (1 << 20) - 1 {
            edges.insert((r.below(n) as u16, 1 + r.below(255) as u8, r.below(n) as u16));
        }
        let graph = Graph::new(vec![9; n], edges.into_iter().collect());
        let (old, need) = (graph.store(), graph.store_size());
        let absent: Vec<Edge> = (0..40u16)
            .map(|i| (i % 2 * 65_534, 255, 1_600 * i))
            .filter(|edge| graph.edges.binary_search(edge).is_err())
            .collect();
        let mut forty: Vec<Change> = absent.iter().copied().map(add).collect();
        let one = changes::file(&forty[..1]);
        for words in [need, need + 2, 0] {
            assert_eq!(compare(r, &old, &one, words), 29);
        }
        forty.extend([take(graph.edges[0]), take(*graph.edges.last().unwrap())]);
        forty.extend((1..absent.len() - 1).map(|i| take(graph.edges[20_000 * i])));
        forty.sort_by_key(|change| change.edge);
        let balanced = changes::file(&forty);
        assert_eq!(compare(r, &old, &balanced, need + 3), 0);
        assert_eq!(compare(r, &old, &balanced, need - 1), 5);
        // All of them but one, and one that is there already.
        let at = forty.iter().position(|change| !change.adds).unwrap();
        let mut more = forty.clone();
        more.remove(at);
        assert_eq!(compare(r, &old, &changes::file(&more), need), 29);
        let at = more.iter().position(|change| !change.adds).unwrap();
        more[at].adds = true;
        assert_eq!(compare(r, &old, &changes::file(&more), need), 28);
        // As many as are few at most, and one more.
        let spread: Vec<Change> = (0..1_024).map(|i| take(graph.edges[1_000 * i])).collect();
        assert_eq!(compare(r, &old, &changes::file(&spread[..1_023]), need), 0);
        assert_eq!(compare(r, &old, &changes::file(&spread), need), 0);
        // Every edge away.
        let all: Vec<Change> = graph.edges.iter().copied().map(take).collect();
        assert_eq!(compare(r, &old, &changes::file(&all), 4 + 4 * n), 0);
        // Every edge of the largest graph, to one that has none.
        let none = Graph { edges: Vec::new(), ..graph.clone() };
        assert_eq!(compare(r, &none.store(), &changes::file(&changes::reverse(&all)), need), 0);
    });
}

/// Words and bytes of any kind.
#[test]
fn words_and_bytes_of_any_kind() {
    each(0..20_000, |r| {
        let count = r.below(60);
        let mut old = r.words(count);
        old.iter_mut().for_each(|word| *word %= [2, 4, 8, 65_540, 131_074, u32::MAX][r.below(6)]);
        let mut file: Vec<u8> = (0..r.below(40)).map(|_| r.next() as u8).collect();
        if r.chance(1, 2) {
            // A count that its length has changes for.
            let count = (8 * file.len()).saturating_sub(20) / 41;
            let head = [0, (count >> 4) as u8, (count << 4) as u8];
            file.iter_mut().zip(head).for_each(|(byte, head)| *byte = head);
        }
        let words = r.below(60);
        compare(r, &old, &file, words);
        compare(r, &Graph::random(r, 5).store(), &file, words);
    });
}

/// The wrapper: a new store of just its words, the old one as it was, and refusals as it gives them.
#[test]
fn wrapper() {
    let graph = Graph::new(vec![0; 3], vec![(0, 1, 1), (1, 1, 2)]);
    let store = Store::load(&graph.file()).unwrap();
    let file = |changes: &[Change]| changes::file(changes);
    let changed = store.changed(&file(&[add((0, 1, 2)), take((1, 1, 2)), add((2, 9, 2))])).unwrap();
    assert_eq!((store.edges(), changed.vertices(), changed.edges()), (2, 3, 3));
    assert_eq!(store.words(), graph.store());
    let edited = Graph::new(vec![0; 3], vec![(0, 1, 1), (0, 1, 2), (2, 9, 2)]);
    assert_eq!(changed.words(), edited.store());
    let emptied = store.changed(&file(&[take((0, 1, 1)), take((1, 1, 2))])).unwrap();
    assert_eq!(emptied.into_words().len(), 16);
    assert_eq!(store.changed(&file(&[])).unwrap(), store);
    // Words past the used ones are not the new store's.
    let longer = Store::from_words([graph.store(), vec![7; 5]].concat());
    assert_eq!(longer.changed(&file(&[])).unwrap(), store);

    for bad in [&[][..], &[255; 3], &[0; 2], &[0, 0, 1], &[0; 4]] {
        assert_eq!(store.changed(bad), Err(Refusal::ChangesFile), "{bad:?}");
    }
    assert_eq!(store.changed(&file(&[add((0, 1, 1))])), Err(Refusal::ChangesEdge));
    assert_eq!(store.changed(&file(&[take((2, 9, 2))])), Err(Refusal::ChangesEdge));
    for words in [vec![], vec![1; 8], vec![u32::MAX; 8]] {
        assert_eq!(Store::from_words(words).changed(&file(&[])), Err(Refusal::StoreDamaged));
    }
    let mut words = [7; 20];
    let counts = rizhavaan::Loaded { vertices: 3, edges: 1 };
    assert_eq!(rizhavaan::apply_changes_into(store.words(), &file(&[take((1, 1, 2))]), &mut words), Ok(counts));
    assert_eq!(words[18..], [7; 2]);
    assert_eq!(words[..18], Graph::new(vec![0; 3], vec![(0, 1, 1)]).store());
    let mut short = [7; 17];
    let refused = rizhavaan::apply_changes_into(store.words(), &file(&[take((1, 1, 2))]), &mut short);
    assert_eq!((refused, short), (Err(Refusal::StoreSmall), [7; 17]));
}
