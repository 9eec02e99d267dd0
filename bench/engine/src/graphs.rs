//! Graphs from fixed seeds.
use std::collections::BTreeSet;

/// An edge: source, label, target.
pub type Edge = (u16, u8, u16);

/// What a graph is like, whatever its size.
#[derive(Clone, Copy, PartialEq)]
pub enum Shape {
    /// Its power, its labels, and how many edges it has for each vertex.
    PowerLaw(f64, usize, f64),
    /// Power law, and with each edge the one back.
    Slings,
    Rig,
    /// Like the packages of a distribution, with so many edges for each vertex: nine kinds of dependency.
    Packages(f64),
}

impl Shape {
    pub fn name(self) -> String {
        match self {
            Shape::PowerLaw(power, labels, degree) => {
                let kinds = if labels == 1 { "one label".into() } else { format!("{labels} labels") };
                format!("power law {power}, {degree:.0} edges a vertex, {kinds}")
            }
            Shape::Slings => "slings, every edge in both directions".into(),
            Shape::Rig => format!("rig, {} labels", rig_label::CABLES.end - 1),
            Shape::Packages(_) => format!("packages, {} labels", KINDS.len()),
        }
    }

    /// A graph of about so many edges.
    pub fn graph(self, m: usize) -> Graph {
        let (labels, edges) = match self {
            Shape::PowerLaw(power, labels, degree) => {
                let n = ((m as f64 / degree).round() as usize).min(65_535);
                (vec![0; n], power_law(n, m, labels, power))
            }
            Shape::Slings => {
                let n = (m / 8).min(65_535);
                let edges: BTreeSet<Edge> =
                    power_law(n, m / 2, 1, 1.3).into_iter().flat_map(|(s, l, t)| [(s, l, t), (t, l, s)]).collect();
                (vec![0; n], edges.into_iter().collect())
            }
            Shape::Rig => rig(m / 2),
            Shape::Packages(degree) => {
                let n = ((m as f64 / degree).round() as usize).min(65_535);
                (vec![0; n], packages(n))
            }
        };
        let mut r = Random(0xDA75 ^ labels.len() as u64);
        let days = labels.iter().map(|_| 1 + r.below(DAYS) as u16).collect();
        let name = format!("{}: {} vertices, {} edges", self.name(), labels.len(), edges.len());
        Graph { name, labels, days, edges }
    }
}

/// Inspection days are 1 to this, each as likely.
pub const DAYS: usize = 5_000;

pub struct Graph {
    pub name: String,
    pub labels: Vec<u16>,
    pub days: Vec<u16>,
    pub edges: Vec<Edge>,
}

/// The field of so many bits, at most 24, at a bit of a file.
fn field(file: &[u8], at: usize, width: usize) -> u32 {
    let bytes = (at / 8..at / 8 + 4).fold(0, |word, i| word << 8 | u32::from(file.get(i).copied().unwrap_or(0)));
    bytes << (at % 8) >> (32 - width)
}

impl Graph {
    /// The graph of a packed file that is accepted.
    pub fn of_file(name: &str, file: &[u8]) -> Graph {
        let (n, m) = (field(file, 0, 16) as usize, field(file, 16, 20) as usize);
        let edge = |i: usize| {
            let at = 36 + 32 * n + 40 * i;
            (field(file, at, 16) as u16, field(file, at + 16, 8) as u8, field(file, at + 24, 16) as u16)
        };
        Graph {
            name: format!("{name}: {n} vertices, {m} edges"),
            labels: (0..n).map(|v| field(file, 36 + 32 * v, 16) as u16).collect(),
            days: (0..n).map(|v| field(file, 52 + 32 * v, 16) as u16).collect(),
            edges: (0..m).map(edge).collect(),
        }
    }

    /// Its first vertices, with the edges between them.
    pub fn part(mut self, n: usize) -> Graph {
        self.labels.truncate(n);
        self.days.truncate(n);
        self.edges.retain(|&(source, _, target)| usize::from(source) < n && usize::from(target) < n);
        let name = self.name.split(':').next().unwrap_or_default();
        self.name = format!("{name}: {} vertices, {} edges", self.labels.len(), self.edges.len());
        self
    }

    /// The packed file: N (16 bits), M (20), labels (16) with a day (16) after each, edges of source (16), label (8), target (16).
    pub fn file(&self) -> Vec<u8> {
        let mut file = Bits::default();
        file.put(self.labels.len() as u64, 16);
        file.put(self.edges.len() as u64, 20);
        for (&label, &day) in self.labels.iter().zip(&self.days) {
            file.put(label.into(), 16);
            file.put(day.into(), 16);
        }
        for &edge in &self.edges {
            file.put_edge(edge);
        }
        file.bytes()
    }

    /// So many changes, every other one an addition: their file, and the edited graph.
    pub fn changed(&self, count: usize) -> (Vec<u8>, Graph) {
        let mut r = Random(0xC4A6);
        let mut edges: BTreeSet<Edge> = self.edges.iter().copied().collect();
        let mut changes = std::collections::BTreeMap::new();
        while changes.len() < count {
            let (source, label, target) = self.edges[r.below(self.edges.len())];
            let adds = changes.len() % 2 == 0;
            let target = if adds { r.below(self.labels.len()) as u16 } else { target };
            let edge = (source, label, target);
            if edges.contains(&edge) != adds && !changes.contains_key(&edge) {
                changes.insert(edge, adds);
            }
        }
        let mut file = Bits::default();
        file.put(changes.len() as u64, 20);
        for (&edge, &adds) in &changes {
            file.put(adds.into(), 1);
            file.put_edge(edge);
            match adds {
                true => edges.insert(edge),
                false => edges.remove(&edge),
            };
        }
        let edited = Graph {
            name: self.name.clone(),
            labels: self.labels.clone(),
            days: self.days.clone(),
            edges: edges.into_iter().collect(),
        };
        (file.bytes(), edited)
    }
}

/// Packed fields, most significant bit first.
#[derive(Default)]
pub struct Bits {
    bytes: Vec<u8>,
    rest: u64,
    bits: usize,
}

impl Bits {
    pub fn put(&mut self, number: u64, width: usize) {
        self.rest = self.rest << width | number;
        self.bits += width;
        while self.bits >= 8 {
            self.bits -= 8;
            self.bytes.push((self.rest >> self.bits) as u8);
            self.rest &= (1 << self.bits) - 1;
        }
    }

    fn put_edge(&mut self, (source, label, target): Edge) {
        self.put(source.into(), 16);
        self.put(label.into(), 8);
        self.put(target.into(), 16);
    }

    pub fn bytes(mut self) -> Vec<u8> {
        if self.bits > 0 {
            self.put(0, 8 - self.bits);
        }
        self.bytes
    }
}

struct Random(u64);

impl Random {
    fn next(&mut self) -> u64 {
        self.0 ^= self.0 << 13;
        self.0 ^= self.0 >> 7;
        self.0 ^= self.0 << 17;
        self.0.wrapping_mul(0x2545_F491_4F6C_DD1D) >> 11
    }

    fn below(&mut self, end: usize) -> usize {
        (self.next() % end as u64) as usize
    }

    fn unit(&mut self) -> f64 {
        self.next() as f64 / (1u64 << 53) as f64
    }
}

/// Both ends of an edge are vertex n × u^power for a uniform u, renumbered at random: the larger the power, the larger the hubs.
/// Of several labels, the first is on three edges in four.
fn power_law(n: usize, m: usize, labels: usize, power: f64) -> Vec<Edge> {
    let mut r = Random(0x9E37_79B9_7F4A_7C15 ^ (n + m + labels) as u64);
    let mut number: Vec<u16> = (0..n).map(|v| v as u16).collect();
    (1..n).rev().for_each(|i| number.swap(i, r.below(i + 1)));
    let mut edges = BTreeSet::new();
    while edges.len() < m {
        let mut end = || number[(n as f64 * r.unit().powf(power)) as usize];
        let (source, target) = (end(), end());
        let label = if labels > 1 && r.below(4) == 0 { 2 + r.below(labels - 1) } else { 1 };
        edges.insert((source, label as u8, target));
    }
    edges.into_iter().collect()
}

/// The edge labels of a rig. Further labels, up to `CABLES`, are cables between places near each other.
pub mod rig_label {
    pub const TOP: u8 = 1;
    pub const BOTTOM: u8 = 2;
    pub const POST: u8 = 3;
    pub const BRACE: u8 = 4;
    pub const HANGS: u8 = 5;
    pub const LINK: u8 = 6;
    pub const CABLES: std::ops::Range<usize> = 7..40;
}

/// Trusses of braced bays, with motors on chains below every third bottom joint, and cables: low degrees and many labels.
fn rig(vertices: usize) -> (Vec<u16>, Vec<Edge>) {
    use rig_label::*;
    let mut r = Random(0x51E6);
    let mut labels: Vec<u16> = Vec::new();
    let mut edges = BTreeSet::new();
    let mut vertex = |label: u16| {
        labels.push(label);
        (labels.len() - 1) as u16
    };
    let mut last = 0;
    while usize::from(last) < vertices {
        let mut before: Option<(u16, u16)> = None;
        for bay in 0..8 + r.below(16) {
            let (top, bottom) = (vertex(1), vertex(2));
            edges.insert((top, POST, bottom));
            if let Some((top_before, bottom_before)) = before {
                edges.insert((top_before, TOP, top));
                edges.insert((bottom_before, BOTTOM, bottom));
                edges.insert((top_before, BRACE, bottom));
            }
            before = Some((top, bottom));
            last = bottom;
            if bay % 3 == 0 {
                let mut above = vertex(3);
                edges.insert((bottom, HANGS, above));
                for _ in 0..2 + r.below(6) {
                    let below = vertex(4);
                    edges.insert((above, LINK, below));
                    above = below;
                }
                last = above;
            }
        }
    }
    let n = labels.len();
    for _ in 0..n / 2 {
        let from = r.below(n);
        let to = (from + 1 + r.below(60)).min(n - 1);
        edges.insert((from as u16, (CABLES.start + r.below(CABLES.len())) as u8, to as u16));
    }
    (labels, edges.into_iter().collect())
}

/// The kinds of dependency of a package, by label: how many packages in a thousand have some, and how many of them on average. The
/// third is the common one; those of the others are few, and often of the same packages.
const KINDS: [(usize, f64); 9] =
    [(90, 2.0), (50, 1.6), (930, 4.4), (20, 1.3), (30, 1.2), (100, 2.0), (160, 2.4), (90, 2.0), (170, 2.1)];

/// Every package depends on a few others, most often on one of a few hubs.
fn packages(n: usize) -> Vec<Edge> {
    let mut r = Random(0xDEB1_A400 ^ n as u64);
    let mut number: Vec<u16> = (0..n).map(|v| v as u16).collect();
    (1..n).rev().for_each(|i| number.swap(i, r.below(i + 1)));
    let mut edges = BTreeSet::new();
    for source in 0..n {
        let rich = r.below(1_000) < 350;
        for (kind, &(share, mean)) in KINDS.iter().enumerate() {
            let common = kind == 2;
            let share = if common { share } else { share * if rich { 220 } else { 35 } / 100 };
            if r.below(1_000) >= share {
                continue;
            }
            let mut more = true;
            while more {
                let hub = kind == 2 || kind == 6 || kind == 8;
                let power = if hub { 4.0 } else { 1.0 };
                edges.insert((source as u16, kind as u8 + 1, number[(n as f64 * r.unit().powf(power)) as usize]));
                more = r.unit() > 1.0 / mean;
            }
        }
    }
    edges.into_iter().collect()
}
