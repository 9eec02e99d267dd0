//! Graphs, their files, and their stores.
use super::bits::{pack, Reader};
use super::random::Random;

/// An edge: source, label, target.
pub type Edge = (u16, u8, u16);

#[derive(Clone, Debug, PartialEq, Eq)]
pub struct Graph {
    pub labels: Vec<u16>,
    /// One for each label; 0 for none.
    pub days: Vec<u16>,
    pub edges: Vec<Edge>,
}

/// The words of a graph whose labels, days and edges, as [source, label, target], may be beyond their limits.
pub fn words_of(labels: &[u32], days: &[u32], edges: &[[u32; 3]]) -> Vec<u32> {
    let mut words = vec![labels.len() as u32, edges.len() as u32];
    words.extend(labels);
    words.extend(days);
    let backward = edges.iter().map(|&[s, l, t]| [t, l, s]).collect();
    for mut side in [edges.to_vec(), backward] {
        side.sort();
        words.extend((0..=labels.len()).map(|v| side.partition_point(|e| (e[0] as usize) < v) as u32));
        words.extend(side.iter().map(|[_, label, far]| label * 65_536 + far));
    }
    words
}

impl Graph {
    pub fn vertices(&self) -> usize {
        self.labels.len()
    }

    /// Without days.
    pub fn new(labels: Vec<u16>, mut edges: Vec<Edge>) -> Graph {
        edges.sort();
        edges.dedup();
        Graph::as_given(labels, edges)
    }

    /// The same with the edges as they stand, sorted or not.
    pub fn as_given(labels: Vec<u16>, edges: Vec<Edge>) -> Graph {
        Graph { days: vec![0; labels.len()], labels, edges }
    }

    pub fn dated(self, days: Vec<u16>) -> Graph {
        assert_eq!(days.len(), self.vertices());
        Graph { days, ..self }
    }

    /// The file, as the edges stand.
    pub fn file(&self) -> Vec<u8> {
        let mut fields = vec![(self.labels.len() as u64, 16), (self.edges.len() as u64, 20)];
        for v in 0..self.vertices() {
            fields.extend([(u64::from(self.labels[v]), 16), (u64::from(self.days[v]), 16)]);
        }
        for &(source, label, target) in &self.edges {
            fields.extend([(u64::from(source), 16), (u64::from(label), 8), (u64::from(target), 16)]);
        }
        pack(fields)
    }

    /// Refusals 1 to 4, or the graph.
    pub fn read(file: &[u8]) -> Result<Graph, u32> {
        let mut reader = Reader::new(file);
        if file.len() < 5 {
            return Err(1);
        }
        let (n, m) = (reader.field(16).unwrap(), reader.field(20).unwrap());
        if (file.len() as u64) < 5 + 4 * n + 5 * m {
            return Err(1);
        }
        let mut field = |width| reader.field(width).unwrap();
        let (labels, days) = (0..n).map(|_| (field(16) as u16, field(16) as u16)).unzip();
        let edges: Vec<Edge> = (0..m).map(|_| (field(16) as u16, field(8) as u8, field(16) as u16)).collect();
        if !reader.ends() {
            return Err(2);
        }
        for (i, &edge) in edges.iter().enumerate() {
            let (source, label, target) = edge;
            if u64::from(source) >= n || u64::from(target) >= n || label == 0 {
                return Err(3);
            }
            if i > 0 && edges[i - 1] >= edge {
                return Err(4);
            }
        }
        Ok(Graph { labels, days, edges })
    }

    pub fn store_size(&self) -> usize {
        4 * self.labels.len() + 2 * self.edges.len() + 4
    }

    /// The words that the graph's file loads to.
    pub fn store(&self) -> Vec<u32> {
        let (labels, days, edges) = self.numbers();
        words_of(&labels, &days, &edges)
    }

    /// Labels, days and edges, in words.
    pub fn numbers(&self) -> (Vec<u32>, Vec<u32>, Vec<[u32; 3]>) {
        let words = |numbers: &[u16]| numbers.iter().map(|&x| x.into()).collect();
        let edges = self.edges.iter().map(|&(s, l, t)| [s.into(), l.into(), t.into()]).collect();
        (words(&self.labels), words(&self.days), edges)
    }

    /// The graph of a store, if some accepted file loads to it: the forward lists say what the graph is, its file must be
    /// accepted, and its words must be these.
    pub fn of_store(words: &[u32]) -> Option<Graph> {
        let n = usize::try_from(*words.first()?).ok()?;
        let m = usize::try_from(*words.get(1)?).ok()?;
        if n >= 1 << 16 || m >= 1 << 20 {
            return None;
        }
        let numbers = |at| words.get(at..at + n)?.iter().map(|&x| u16::try_from(x).ok()).collect::<Option<Vec<u16>>>();
        let (labels, days) = (numbers(2)?, numbers(2 + n)?);
        let offsets = words.get(2 + 2 * n..3 + 3 * n)?;
        let entries = words.get(3 + 3 * n..3 + 3 * n + m)?;
        let mut edges = Vec::new();
        for (v, ends) in offsets.windows(2).enumerate() {
            for &entry in entries.get(ends[0] as usize..ends[1] as usize)? {
                edges.push((v as u16, u8::try_from(entry / 65536).ok()?, (entry % 65536) as u16));
            }
        }
        let graph = Graph::read(&Graph { labels, days, edges }.file()).ok()?;
        let store = graph.store();
        (words.len() >= store.len() && words[..store.len()] == store).then_some(graph)
    }

    /// A graph with up to so many vertices, dense or sparse, with few labels or many, sometimes with a hub. Every other one has pairs
    /// that further labels join, and some of these a pair that many do. Days are none, near the ends of the ranges of random queries,
    /// or any.
    pub fn random(r: &Random, most: usize) -> Graph {
        let n = r.below(most + 1);
        let labels = (0..n).map(|_| r.below(3) as u16).collect();
        let kinds = if r.chance(1, 5) { 255 } else { 1 + r.below(3) };
        let hub = r.chance(1, 3).then(|| r.below(n.max(1)));
        let count = if n == 0 { 0 } else { r.below(n * (1 + r.below(10)) + 2) };
        let end = |r: &Random| match hub {
            Some(v) if r.chance(1, 3) => v as u16,
            _ => r.below(n) as u16,
        };
        let mut edges: Vec<Edge> = (0..count).map(|_| (end(r), 1 + r.below(kinds) as u8, end(r))).collect();
        if count > 0 && r.chance(1, 2) {
            for _ in 0..r.below(count + 3) {
                let (source, _, target) = edges[r.below(edges.len())];
                edges.push((source, 1 + r.below(kinds.max(3)) as u8, target));
            }
            if r.chance(1, 4) {
                let (source, target) = (end(r), end(r));
                edges.extend((0..r.below(60)).map(|_| (source, 1 + r.below(255) as u8, target)));
            }
        }
        let kind = r.below(4);
        let days = (0..n).map(|_| match kind {
            0 => 0,
            1 | 2 => r.day(),
            _ => r.next() as u16,
        });
        Graph::new(labels, edges).dated(days.collect())
    }
}
