//! The query file: n vertices (4 bits), m edges (5 bits), then n vertices of label (16 bits), first
//! day (16) and last day (16), then m edges of from (3), to (3), label (8), then a pair count (4)
//! and pairs of low (3), high (3).

use crate::day::{Day, Days};
use crate::packed::bits::{BitReader, BitWriter};
use crate::packed::edge::{Edge, FileFault, Limits};
use crate::packed::pair::{first_fault, Pair};

/// What an item has to be: of this label, where 0 fits every one, and last inspected on one of
/// these days.
#[derive(Clone, Copy, Debug, PartialEq, Eq)]
pub struct Vertex {
    pub label: u32,
    pub days: Days,
}

/// A pattern. Its vertices are numbered from 0; an edge of label 0 fits every data edge; the edges
/// ascend by (from, to, label), the pairs by (low, high).
#[derive(Clone, Debug, PartialEq, Eq)]
pub struct Query {
    pub vertices: Vec<Vertex>,
    pub edges: Vec<Edge>,
    pub pairs: Vec<Pair>,
}

impl Query {
    pub const LIMITS: Limits = Limits { vertices: 2..=8, edges: 1..=24, pairs: 0..=15, loops: false, any_label: true };

    pub fn new(vertices: Vec<Vertex>, mut edges: Vec<Edge>, mut pairs: Vec<Pair>) -> Self {
        edges.sort_by_key(key);
        pairs.sort();
        Query { vertices, edges, pairs }
    }

    pub fn to_bytes(&self) -> Vec<u8> {
        let mut out = BitWriter::default();
        out.put(self.vertices.len() as u32, 4);
        out.put(self.edges.len() as u32, 5);
        for v in &self.vertices {
            out.put(v.label, 16);
            out.put(v.days.first.0, 16);
            out.put(v.days.last.0, 16);
        }
        for e in &self.edges {
            out.put(e.source, 3);
            out.put(e.target, 3);
            out.put(e.label, 8);
        }
        out.put(self.pairs.len() as u32, 4);
        for p in &self.pairs {
            out.put(p.low, 3);
            out.put(p.high, 3);
        }
        out.finish()
    }

    /// The query of a file, or the first fault in the engine's order. Whether the query is
    /// connected is not asked.
    pub fn from_bytes(bytes: &[u8]) -> Result<Self, FileFault> {
        let mut file = BitReader::new(bytes);
        let too_short = || FileFault::new(6, "the file is too short");
        let n = file.take(4).ok_or_else(too_short)? as usize;
        let m = file.take(5).ok_or_else(too_short)? as usize;
        if !Query::LIMITS.vertices.contains(&n) {
            return Err(FileFault::new(8, format!("{n} vertices")));
        }
        if !Query::LIMITS.edges.contains(&m) {
            return Err(FileFault::new(8, format!("{m} edges")));
        }
        let query = read(&mut file, n, m).ok_or_else(too_short)?;
        let Query { vertices, edges, pairs } = &query;
        if file.is_long() {
            return Err(FileFault::new(7, "the file is too long"));
        }
        if file.has_fill_set() {
            return Err(FileFault::new(7, "a fill bit is set"));
        }
        if let Some(i) = vertices.iter().position(|v| v.days.is_reversed()) {
            let Days { first, last } = vertices[i].days;
            let reason = format!("vertex {i}: first day {first} above last day {last}");
            return Err(FileFault::new(25, reason));
        }
        for (i, e) in edges.iter().enumerate() {
            if e.source.max(e.target) as usize >= n {
                return Err(FileFault::new(9, format!("edge {e}: no such vertex")));
            }
            if e.source == e.target {
                return Err(FileFault::new(9, format!("edge {e}: equal ends")));
            }
            if i > 0 && key(&edges[i - 1]) >= key(e) {
                return Err(FileFault::new(10, format!("edge {e} does not ascend")));
            }
        }
        match first_fault(pairs, n) {
            Some(fault) => Err(fault),
            None => Ok(query),
        }
    }
}

/// What edges ascend by.
fn key(e: &Edge) -> (u32, u32, u32) {
    (e.source, e.target, e.label)
}

fn read(file: &mut BitReader, n: usize, m: usize) -> Option<Query> {
    let vertices = (0..n).map(|_| vertex(file)).collect::<Option<_>>()?;
    let edges = (0..m).map(|_| edge(file)).collect::<Option<_>>()?;
    let count = file.take(4)?;
    let pairs = (0..count).map(|_| pair(file)).collect::<Option<_>>()?;
    Some(Query { vertices, edges, pairs })
}

fn vertex(file: &mut BitReader) -> Option<Vertex> {
    let label = file.take(16)?;
    let first = Day(file.take(16)?);
    let last = Day(file.take(16)?);
    let days = Days { first, last };
    Some(Vertex { label, days })
}

fn edge(file: &mut BitReader) -> Option<Edge> {
    let source = file.take(3)?;
    let target = file.take(3)?;
    let label = file.take(8)?;
    Some(Edge { source, label, target })
}

fn pair(file: &mut BitReader) -> Option<Pair> {
    let low = file.take(3)?;
    let high = file.take(3)?;
    Some(Pair { low, high })
}
