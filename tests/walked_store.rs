//! Refusal 19 of larger stores, whose entries are walked label by label: of few labels and many, with fewer and more vertices than the
//! small tables hold, with hubs, and with lists of more than 65,535 entries. The judge is that of `damaged_store`.
use judge::calls::{self, Input};
use judge::graph::{Edge, Graph};
use judge::plan::{self, Operator};
use judge::query::Query;
use judge::random::{each, Random};

/// Whether a run over these words is refused with 19. With no scratch it lists nothing.
fn refused(r: &Random, words: &[u32]) -> bool {
    let (query, plan) = (Query::plain(2, &[(0, 1)]).file(), plan::file(&[Operator::Scan(0)]));
    let refusal = calls::run(r, &Input { store: words, query: &query, plan: &plan, cache: false }, 0, 0).refusal;
    assert!([0, 19, 20].contains(&refusal), "refused with {refusal}");
    refusal == 19
}

/// Edges of some of these labels; where there is a hub, one end in three is it.
fn graph(r: &Random, n: usize, m: usize, labels: &[u8], hub: bool) -> Graph {
    let end = |r: &Random| if hub && r.chance(1, 3) { 7 } else { r.below(n) as u16 };
    // The first label is on every other edge, so that most vertices have later labels too.
    let label = |r: &Random| labels[if r.chance(1, 2) { 0 } else { r.below(labels.len()) }];
    Graph::new(vec![0; n], (0..m).map(|_| (end(r), label(r), end(r))).collect())
}

/// So many different labels, not always from 1 on.
fn labels(r: &Random, count: usize) -> Vec<u8> {
    let mut all: Vec<u8> = (1..=255).collect();
    if r.chance(1, 2) {
        for i in 0..255 {
            all.swap(i, i + r.below(255 - i));
        }
    }
    all.truncate(count);
    all
}

/// Where the sides of a store lie, and a list on one of them that has at least so many entries.
struct Places {
    n: usize,
    m: usize,
    sides: [usize; 2],
}

impl Places {
    fn of(words: &[u32]) -> Places {
        let (n, m) = (words[0] as usize, words[1] as usize);
        Places { n, m, sides: [2 + 2 * n, 3 + 3 * n + m] }
    }

    fn list(&self, words: &[u32], side: usize, v: usize) -> std::ops::Range<usize> {
        let at = self.sides[side];
        let entries = at + self.n + 1;
        entries + words[at + v] as usize..entries + words[at + v + 1] as usize
    }

    fn long(&self, r: &Random, words: &[u32], side: usize, least: usize) -> Option<std::ops::Range<usize>> {
        let first = r.below(self.n);
        (0..self.n).map(|i| self.list(words, side, (first + i) % self.n)).find(|list| list.len() >= least)
    }
}

/// Damages a store in one of many ways; some of them leave it as it was.
fn damage(r: &Random, words: &mut [u32]) {
    let places = Places::of(words);
    let side = r.below(2);
    let entry = places.sides[side] + places.n + 1 + r.below(places.m);
    match r.below(9) {
        // Two entries of one list are exchanged: neighbours, or any two.
        0 | 1 => {
            if let Some(list) = places.long(r, words, side, 2) {
                let i = list.start + r.below(list.len() - 1);
                words.swap(i, i + 1);
            }
        }
        2 => {
            if let Some(list) = places.long(r, words, side, 3) {
                words.swap(list.start + r.below(list.len()), list.start + r.below(list.len()));
            }
        }
        // Two entries of a side are exchanged.
        3 => {
            let other = places.sides[side] + places.n + 1 + r.below(places.m);
            words.swap(entry, other);
        }
        // An entry of another label, neighbour, or anything.
        4 => words[entry] = words[entry] % 65_536 + 65_536 * [0, 1, 2, 255, 256][r.below(5)],
        5 => words[entry] = words[entry] / 65_536 * 65_536 + [0, places.n as u32 - 1, places.n as u32, 65_535][r.below(4)],
        6 => words[entry] = [0, 65_535, u32::MAX, r.next() as u32][r.below(4)],
        // An entry stands twice.
        7 => words[entry] = words[entry - 1],
        // An entry is given to the vertex before or after.
        _ => {
            let offset = places.sides[side] + 1 + r.below(places.n);
            words[offset] = if r.chance(1, 2) { words[offset] + 1 } else { words[offset].saturating_sub(1) };
        }
    }
}

/// Damages copies of a store and holds each to the judge; answers how many were refused and accepted.
fn hold(r: &Random, store: &[u32], times: usize) -> [usize; 2] {
    assert!(!refused(r, store));
    let mut seen = [0; 2];
    for _ in 0..times {
        let mut words = store.to_vec();
        for _ in 0..1 + r.below(2) {
            damage(r, &mut words);
        }
        let accepted = Graph::of_store(&words).is_some();
        assert_eq!(refused(r, &words), !accepted, "{} vertices, {} edges", words[0], words[1]);
        seen[usize::from(accepted)] += 1;
    }
    seen
}

#[test]
fn few_labels_and_many() {
    let mut seen = [0; 2];
    each(0..6, |r| {
        for n in [300, 1_024, 1_025, 2_000] {
            for count in [1, 3, 9, 12, 13, 17, 40, 255] {
                let (m, labels, hub) = (n * (1 + r.below(4)), labels(r, count), r.chance(1, 2));
                let now = hold(r, &graph(r, n, m, &labels, hub).store(), 12);
                seen = [seen[0] + now[0], seen[1] + now[1]];
            }
        }
    });
    assert!(seen[0] > 1_500 && seen[1] > 20, "{seen:?}");
}

/// A source and a target of 70,000 entries each: more than a count of 16 bits holds.
#[test]
fn lists_of_more_than_65_535_entries() {
    each(0..2, |r| {
        let others = (0..35_000u16).flat_map(|v| [(v, 1), (v, 2)]);
        let edges: Vec<Edge> = others.flat_map(|(v, label)| [(35_000, label, v), (v, label, 35_001)]).collect();
        let store = Graph::new(vec![0; 35_002], edges).store();
        let places = Places::of(&store);
        assert!(!refused(r, &store));
        for side in [0, 1] {
            let list = places.list(&store, side, 35_000 + side);
            assert_eq!(list.len(), 70_000);
            for at in [0, 34_999, 65_534, 65_535, 65_536, 69_998, r.below(69_999)] {
                let mut words = store.clone();
                words.swap(list.start + at, list.start + at + 1);
                assert!(refused(r, &words), "entries {at} and {} exchanged on side {side}", at + 1);
                let mut words = store.clone();
                words[list.start + at] += 65_536;
                assert!(refused(r, &words), "entry {at} of another label on side {side}");
            }
        }
        let seen = hold(r, &store, 12);
        assert!(seen[0] > 5, "{seen:?}");
    });
}

/// The sides of two graphs, each in order: one edge has another label, source or target on the backward side.
#[test]
fn sides_of_two_graphs() {
    let mut count = 0;
    each(0..60, |r| {
        let n = [200, 1_024, 1_100][r.below(3)];
        let labels = labels(r, [1, 3, 9][r.below(3)]);
        let one = graph(r, n, 3 * n, &labels, r.chance(1, 2));
        let mut edges = one.edges.clone();
        for _ in 0..1 + r.below(3) {
            let edge = r.below(edges.len());
            match r.below(3) {
                0 => edges[edge].1 = labels[r.below(labels.len())],
                1 => edges[edge].0 = r.below(n) as u16,
                _ => edges[edge].2 = r.below(n) as u16,
            }
        }
        let two = Graph::new(one.labels.clone(), edges);
        if two.edges.len() < one.edges.len() || two.edges == one.edges {
            return;
        }
        let mut words = one.store();
        let backward = Places::of(&words).sides[1];
        words[backward..].copy_from_slice(&two.store()[backward..]);
        assert!(refused(r, &words));
        count += 1;
    });
    assert!(count > 20, "{count}");
}
