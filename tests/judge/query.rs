//! Queries and their files.
use super::bits::{pack, Reader};
use super::random::Random;

/// An edge: from, to, label; 0 is any label.
pub type QueryEdge = (usize, usize, u8);

/// A first and a last day, both inclusive.
pub type Days = (u16, u16);

/// Every day.
pub const EVER: Days = (0, 65_535);

/// A pair of vertices: the first's number must be below the second's.
pub type Pair = (usize, usize);

#[derive(Clone, Debug, PartialEq, Eq)]
pub struct Query {
    pub labels: Vec<u16>,
    /// One for each label.
    pub days: Vec<Days>,
    pub edges: Vec<QueryEdge>,
    pub pairs: Vec<Pair>,
}

impl Query {
    /// Of every day, without pairs.
    pub fn new(labels: Vec<u16>, mut edges: Vec<QueryEdge>) -> Query {
        edges.sort();
        edges.dedup();
        Query::as_given(labels, edges)
    }

    /// The same with the edges as they stand, sorted or not.
    pub fn as_given(labels: Vec<u16>, edges: Vec<QueryEdge>) -> Query {
        Query { days: vec![EVER; labels.len()], labels, edges, pairs: Vec::new() }
    }

    pub fn inspected(self, days: &[Days]) -> Query {
        assert_eq!(days.len(), self.vertices());
        Query { days: days.to_vec(), ..self }
    }

    /// With these pairs, as they stand.
    pub fn paired(self, pairs: &[Pair]) -> Query {
        Query { pairs: pairs.to_vec(), ..self }
    }

    /// Unlabelled, with edges of label 1.
    pub fn plain(n: usize, pairs: &[(usize, usize)]) -> Query {
        Query::new(vec![0; n], pairs.iter().map(|&(a, b)| (a, b, 1)).collect())
    }

    /// Unlabelled, with edges of any label.
    pub fn any(n: usize, pairs: &[(usize, usize)]) -> Query {
        Query::new(vec![0; n], pairs.iter().map(|&(a, b)| (a, b, 0)).collect())
    }

    pub fn vertices(&self) -> usize {
        self.labels.len()
    }

    pub fn file(&self) -> Vec<u8> {
        let mut fields = vec![(self.labels.len() as u64, 4), (self.edges.len() as u64, 5)];
        for (v, &(first, last)) in self.days.iter().enumerate() {
            fields.extend([self.labels[v], first, last].map(|x| (u64::from(x), 16)));
        }
        for &(from, to, label) in &self.edges {
            fields.extend([(from as u64, 3), (to as u64, 3), (u64::from(label), 8)]);
        }
        fields.push((self.pairs.len() as u64, 4));
        for &(low, high) in &self.pairs {
            fields.extend([(low as u64, 3), (high as u64, 3)]);
        }
        pack(fields)
    }

    /// Refusals 6 to 11, 25 and 26, or the query.
    pub fn read(file: &[u8]) -> Result<Query, u32> {
        if file.len() < 2 {
            return Err(6);
        }
        let mut reader = Reader::new(file);
        let (n, m) = (reader.field(4).unwrap() as usize, reader.field(5).unwrap());
        if !(2..=8).contains(&n) || !(1..=24).contains(&m) {
            return Err(8);
        }
        let mut number = || reader.field(16).map(|x| x as u16).ok_or(6u32);
        let (mut labels, mut days) = (Vec::new(), Vec::new());
        for _ in 0..n {
            labels.push(number()?);
            days.push((number()?, number()?));
        }
        let mut edge = || Some((reader.field(3)? as usize, reader.field(3)? as usize, reader.field(8)? as u8));
        let edges = (0..m).map(|_| edge()).collect::<Option<Vec<_>>>().ok_or(6u32)?;
        let count = reader.field(4).ok_or(6u32)?;
        let mut pair = || Some((reader.field(3)? as usize, reader.field(3)? as usize));
        let pairs = (0..count).map(|_| pair()).collect::<Option<Vec<_>>>().ok_or(6u32)?;
        if !reader.ends() {
            return Err(7);
        }
        if days.iter().any(|(first, last)| first > last) {
            return Err(25);
        }
        for (i, &edge) in edges.iter().enumerate() {
            let (from, to, _) = edge;
            if from >= n || to >= n || from == to {
                return Err(9);
            }
            if i > 0 && edges[i - 1] >= edge {
                return Err(10);
            }
        }
        let known = |&(low, high): &Pair| low < n && high < n && low != high;
        if !pairs.iter().all(known) || pairs.windows(2).any(|two| two[0] >= two[1]) {
            return Err(26);
        }
        let query = Query { labels, days, edges, pairs };
        if query.connected() {
            Ok(query)
        } else {
            Err(11)
        }
    }

    /// Whether, ignoring direction, every vertex is reached from vertex 0: parts are merged edge by edge.
    fn connected(&self) -> bool {
        let mut part: Vec<usize> = (0..self.vertices()).collect();
        for &(a, b, _) in &self.edges {
            let (one, two) = (part[a], part[b]);
            part.iter_mut().for_each(|p| *p = if *p == one { two } else { *p });
        }
        part.iter().all(|&p| p == part[0])
    }

    /// Whether a query edge joins v to some vertex of a set.
    pub fn touches(&self, v: usize, set: &[usize]) -> bool {
        self.edges.iter().any(|&(a, b, _)| a == v && set.contains(&b) || b == v && set.contains(&a))
    }

    /// A connected query: a tree, and some edges more; labelled or not; seldom with many vertices. Every other one has no edge of
    /// any label; in the others half the edges are, and some vertices have such an edge and one of a label between them. One in
    /// three asks for days, and half its vertices do. One in three has pairs, seldom such that contradict each other.
    pub fn random(r: &Random, most: usize) -> Query {
        let n = 2 + r.below(if r.chance(1, 4) { most - 1 } else { 3.min(most - 1) });
        let kinds = if r.chance(1, 2) { 1 } else { 3 };
        let labelled = r.chance(1, 3);
        let labels = (0..n).map(|_| if labelled && r.chance(1, 2) { 1 + r.below(2) as u16 } else { 0 }).collect();
        let any = r.chance(1, 2);
        let definite = |r: &Random| 1 + r.below(kinds) as u8;
        let label = |r: &Random| if any && r.chance(1, 2) { 0 } else { definite(r) };
        let mut edges = Vec::new();
        for v in 1..n {
            let u = r.below(v);
            let (from, to) = if r.chance(1, 2) { (u, v) } else { (v, u) };
            edges.push((from, to, label(r)));
        }
        for _ in 0..r.below(n + 2) {
            let (from, to) = (r.below(n), r.below(n));
            if from != to {
                edges.push((from, to, label(r)));
            }
        }
        if any && r.chance(1, 3) {
            for _ in 0..1 + r.below(3) {
                let (from, to, label) = edges[r.below(edges.len())];
                edges.push((from, to, if label == 0 { definite(r) } else { 0 }));
            }
        }
        let asked = r.chance(1, 3);
        let days: Vec<Days> = (0..n).map(|_| if asked && r.chance(1, 2) { random_days(r) } else { EVER }).collect();
        let pairs = if r.chance(1, 3) { random_pairs(r, n) } else { Vec::new() };
        Query::new(labels, edges).inspected(&days).paired(&pairs)
    }
}

/// Few pairs of n vertices, seldom up to fifteen; most ascend in one order of the vertices, so that numbers satisfy them.
pub fn random_pairs(r: &Random, n: usize) -> Vec<Pair> {
    let mut place: Vec<usize> = (0..n).collect();
    (1..n).for_each(|v| place.swap(v, r.below(v + 1)));
    let (count, any) = (1 + r.below(if r.chance(1, 6) { 15 } else { 2 }), r.chance(1, 8));
    let mut pairs = Vec::new();
    for _ in 0..count {
        let (a, b) = (r.below(n), r.below(n));
        match () {
            _ if a == b => (),
            _ if any || place[a] < place[b] => pairs.push((a, b)),
            _ => pairs.push((b, a)),
        }
    }
    pairs.sort();
    pairs.dedup();
    pairs
}

/// One of the days that random graphs have as an end, or two of them, or any two: the first is not above the last.
fn random_days(r: &Random) -> Days {
    let (one, two) = match r.below(8) {
        0..3 => (0, r.day()),
        3..6 => (r.day(), 65_535),
        6 => (r.day(), r.day()),
        _ => (r.next() as u16, r.next() as u16),
    };
    (one.min(two), one.max(two))
}
