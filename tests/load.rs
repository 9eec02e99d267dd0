//! Load against the judge's reader and its store.
use judge::calls;
use judge::graph::Graph;
use judge::random::{each, Random};

/// Loads into a store of so many arbitrary words, and compares answer and words; answers the refusal.
fn compare(r: &Random, file: &[u8], words: usize) -> u32 {
    let before = r.words(words);
    let mut store = before.clone();
    let got = calls::load(r, file, &mut store);
    let read = Graph::read(file).and_then(|graph| if words < graph.store_size() { Err(5) } else { Ok(graph) });
    match read {
        Err(refusal) => assert_eq!(got.refusal, refusal),
        Ok(graph) => {
            let want = calls::Loaded { refusal: 0, vertices: graph.vertices() as u64, edges: graph.edges.len() as u64 };
            assert_eq!(got, want);
            let used = graph.store_size();
            assert_eq!(store[..used], graph.store());
            assert_eq!(store[used..], before[used..], "words past the used ones are changed");
        }
    }
    got.refusal
}

#[test]
fn random_files_valid_and_damaged() {
    let mut seen = [0; 6];
    each(0..30_000, |r| {
        let most = if r.chance(1, 20) { 60 } else { 8 };
        let mut graph = Graph::random(r, most);
        if graph.edges.len() > 1 && r.chance(1, 5) {
            let (i, j) = (r.below(graph.edges.len()), r.below(graph.edges.len()));
            graph.edges.swap(i, j);
        }
        let mut file = graph.file();
        if r.chance(1, 2) {
            r.damage(&mut file);
        }
        let need = graph.store_size();
        let words = match r.below(4) {
            0 => need,
            1 => need - 1,
            2 => need + 1 + r.below(9),
            _ => r.below(2 * need),
        };
        seen[compare(r, &file, words) as usize] += 1;
    });
    assert!(seen.iter().all(|&count| count > 50), "each answer is met often: {seen:?}");
}

#[test]
fn every_bit_and_every_length_of_a_file() {
    each(0..12, |r| {
        let graph = Graph::random(r, 5);
        let (file, need) = (graph.file(), graph.store_size());
        for bit in 0..8 * file.len() {
            let mut file = file.clone();
            file[bit / 8] ^= 128 >> (bit % 8);
            compare(r, &file, need);
        }
        for len in 0..file.len() {
            compare(r, &file[..len], need);
        }
        for byte in [0, 1, 128] {
            compare(r, &[&file[..], &[byte]].concat(), need);
        }
    });
}

#[test]
fn every_store_length_around_the_need() {
    each(0..60, |r| {
        let graph = Graph::random(r, 6);
        for words in 0..graph.store_size() + 4 {
            let refusal = compare(r, &graph.file(), words);
            assert_eq!(refusal, if words < graph.store_size() { 5 } else { 0 });
        }
    });
}

#[test]
fn the_largest_counts() {
    each(0..1, |r| {
        let n = 65_535;
        let mut edges = std::collections::BTreeSet::new();
        while edges.len() < (1 << 20) - 1 {
            edges.insert((r.below(n) as u16, 1 + r.below(255) as u8, r.below(n) as u16));
        }
        let numbers = || (0..n).map(|_| r.next() as u16).collect();
        let graph = Graph::new(numbers(), edges.into_iter().collect()).dated(numbers());
        assert_eq!(compare(r, &graph.file(), graph.store_size() + 3), 0);
        assert_eq!(compare(r, &graph.file(), graph.store_size() - 1), 5);
    });
}
