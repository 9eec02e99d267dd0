//! Refusal 19: stores damaged word by word, against a judge that reads the graph off the words and makes them anew.
use judge::calls::{self, Input};
use judge::graph::{words_of, Graph};
use judge::matcher::Matcher;
use judge::plan::{self, Operator};
use judge::query::{Query, EVER};
use judge::random::{each, Random};
use judge::rules;

/// Runs over these words with all the room it needs; answers whether they were accepted.
fn compare(r: &Random, words: &[u32]) -> bool {
    let days = [EVER, (0, 3), (1, 65_534)][r.below(3)];
    let query = Query::plain(3, &[(0, 1), (1, 2)]).inspected(&[EVER, days, EVER]);
    let operators = [Operator::Scan(0), Operator::Extend(2)];
    let (file, plan) = (query.file(), plan::file(&operators));
    let input = Input { store: words, query: &file, plan: &plan, cache: false };
    match Graph::of_store(words) {
        None => {
            let scratch = r.below(40);
            assert_eq!(calls::run(r, &input, scratch, 40).refusal, 19, "{words:?}");
            false
        }
        Some(graph) => {
            let want = rules::run(&Matcher::new(&graph), &query, &operators, false, 1 << 20).unwrap();
            let got = calls::run(r, &input, want.need, want.rows.len());
            assert_eq!((got.refusal, got.list), (0, want.rows), "{words:?}");
            true
        }
    }
}

/// Every word of a store, changed in each of many ways.
#[test]
fn word_by_word() {
    let mut seen = [0; 2];
    each(0..150, |r| {
        let store = Graph::random(r, 6).store();
        assert!(compare(r, &store));
        for at in 0..store.len() {
            let word = store[at];
            let mut values =
                vec![0, 1, 65_535, 65_536, 16_777_216, u32::MAX, word.wrapping_add(1), word.wrapping_sub(1)];
            values.extend([word.wrapping_add(65_536), word.wrapping_sub(65_536), r.next() as u32, r.next() as u32 % 8]);
            values.extend((0..32).map(|bit| word ^ 1 << bit));
            for value in values {
                let mut damaged = store.clone();
                damaged[at] = value;
                seen[usize::from(compare(r, &damaged))] += 1;
            }
        }
        for words in 0..store.len() {
            assert!(!compare(r, &store[..words]), "a store cut to {words} words");
        }
    });
    assert!(seen[0] > 50_000 && seen[1] > 1_000, "{seen:?}");
}

/// Several words at once: swapped, copied, changed together.
#[test]
fn several_words() {
    let mut seen = [0; 2];
    each(0..60_000, |r| {
        let mut store = Graph::random(r, 7).store();
        for _ in 0..1 + r.below(3) {
            let (i, j) = (r.below(store.len()), r.below(store.len()));
            match r.below(4) {
                0 => store.swap(i, j),
                1 => store[i] = store[j],
                2 => store[i] = store[i].wrapping_add(1),
                _ => store[i] = store[i].wrapping_sub(1),
            }
        }
        seen[usize::from(compare(r, &store))] += 1;
    });
    assert!(seen[0] > 20_000 && seen[1] > 1_000, "{seen:?}");
}

/// Sides that are each in order and do not mirror each other: on the backward side one edge has another label or source.
#[test]
fn sides_that_do_not_mirror() {
    let mut refused = 0;
    each(0..20_000, |r| {
        let one = Graph::random(r, 6);
        let (n, m) = (one.vertices(), one.edges.len());
        if m == 0 {
            return;
        }
        let mut edges = one.edges.clone();
        let edge = &mut edges[r.below(m)];
        match r.below(3) {
            0 => edge.1 = 1 + r.below(4) as u8,
            1 => edge.0 = r.below(n) as u16,
            _ => edge.2 = r.below(n) as u16,
        }
        let other = Graph::new(one.labels.clone(), edges).dated(one.days.clone());
        if other.edges.len() < m || other.edges == one.edges {
            return;
        }
        let mut store = one.store();
        let backward = 3 + 3 * n + m;
        store[backward..].copy_from_slice(&other.store()[backward..]);
        assert!(!compare(r, &store));
        refused += 1;
    });
    assert!(refused > 5_000, "{refused}");
}

/// Sides that mirror each other, of a graph that no file can hold: a label 0 or above 255, an edge twice, a vertex label or a day above
/// 65,535.
#[test]
fn mirrored_damage() {
    let mut seen = [0; 2];
    each(0..20_000, |r| {
        let graph = Graph::random(r, 6);
        let (mut labels, mut days, mut edges) = graph.numbers();
        if edges.is_empty() {
            return;
        }
        let at = r.below(edges.len());
        match r.below(5) {
            0 => edges[at][1] = [0, 255, 256, 257, 65_535][r.below(5)],
            1 => edges.push(edges[at]),
            2 => labels[r.below(graph.vertices())] = [65_535, 65_536, u32::MAX][r.below(3)],
            3 => days[r.below(graph.vertices())] = [65_535, 65_536, u32::MAX][r.below(3)],
            _ => (),
        }
        seen[usize::from(compare(r, &words_of(&labels, &days, &edges)))] += 1;
    });
    assert!(seen.iter().all(|&count| count > 3_000), "{seen:?}");
}

/// Each label and each day of a store at its limit and one beyond: 65,535 stands, 65,536 is refused.
#[test]
fn labels_and_days_at_their_limits() {
    each(0..40, |r| {
        let graph = Graph::random(r, 6);
        let store = graph.store();
        for at in 2..2 + 2 * graph.vertices() {
            for (word, accepted) in
                [(0, true), (65_535, true), (65_536, false), (65_537, false), (131_071, false), (u32::MAX, false)]
            {
                let mut store = store.clone();
                store[at] = word;
                assert_eq!(compare(r, &store), accepted, "{word} in word {at} of {store:?}");
            }
        }
    });
}

/// Counts at their limits and one beyond.
#[test]
fn counts_at_their_limits() {
    each(0..1, |r| {
        for (n, m, accepted) in
            [(65_535, 2, true), (65_536, 2, false), (3_000, 1_048_575, true), (3_000, 1_048_576, false)]
        {
            let edges: Vec<[u32; 3]> = (0..m).map(|i| [i / 1_000, 1 + i % 100, 1 + i % 1_000 / 100]).collect();
            let words = words_of(&vec![0; n], &vec![0; n], &edges);
            let (query, plan) = (Query::plain(2, &[(0, 1)]).file(), plan::file(&[Operator::Scan(0)]));
            let input = Input { store: &words, query: &query, plan: &plan, cache: false };
            assert_eq!(calls::run(r, &input, 0, 0).refusal, if accepted { 20 } else { 19 }, "{n} vertices, {m} edges");
        }
    });
}

#[test]
fn words_of_any_kind() {
    each(0..20_000, |r| {
        let count = r.below(60);
        let mut words = r.words(count);
        words.iter_mut().for_each(|word| *word %= [2, 4, 8, 65_540, 131_074, u32::MAX][r.below(6)]);
        compare(r, &words);
    });
}
