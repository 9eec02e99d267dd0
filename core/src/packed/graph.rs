//! The graph file: N vertices (16 bits), M edges (20 bits), then N vertices of label (16 bits) and
//! inspection day (16), then M edges of source (16), label (8), target (16).

use crate::day::Day;
use crate::packed::bits::{BitReader, BitWriter};
use crate::packed::edge::{Edge, FileFault, Limits};

/// An item: its label, and the day of its last inspection, if it has one.
#[derive(Clone, Copy, Debug, PartialEq, Eq)]
pub struct Vertex {
    pub label: u32,
    pub day: Day,
}

/// A data graph. Its vertices are numbered from 0; the edges ascend by (source, label, target).
#[derive(Clone, Debug, PartialEq, Eq)]
pub struct Graph {
    pub vertices: Vec<Vertex>,
    pub edges: Vec<Edge>,
}

impl Graph {
    pub const LIMITS: Limits =
        Limits { vertices: 0..=65_535, edges: 0..=1_048_575, pairs: 0..=0, loops: true, any_label: false };

    pub fn new(vertices: Vec<Vertex>, mut edges: Vec<Edge>) -> Self {
        edges.sort_unstable_by_key(key);
        Graph { vertices, edges }
    }

    pub fn to_bytes(&self) -> Vec<u8> {
        let mut out = BitWriter::with_capacity(5 + 4 * self.vertices.len() + 5 * self.edges.len());
        out.put(self.vertices.len() as u32, 16);
        out.put(self.edges.len() as u32, 20);
        for v in &self.vertices {
            out.put(v.label, 16);
            out.put(v.day.0, 16);
        }
        for e in &self.edges {
            put_edge(&mut out, e);
        }
        out.finish()
    }

    /// The graph of a file, or the first fault in the engine's order.
    pub fn from_bytes(bytes: &[u8]) -> Result<Self, FileFault> {
        let mut file = BitReader::new(bytes);
        let (vertices, edges) = read(&mut file).ok_or_else(|| FileFault::new(1, "the file is too short"))?;
        if file.is_long() {
            return Err(FileFault::new(2, "the file is too long"));
        }
        if file.has_fill_set() {
            return Err(FileFault::new(2, "a fill bit is set"));
        }
        match first_fault(&edges, vertices.len()) {
            Some(fault) => Err(fault),
            None => Ok(Graph { vertices, edges }),
        }
    }
}

/// What edges ascend by.
pub fn key(e: &Edge) -> (u32, u32, u32) {
    (e.source, e.label, e.target)
}

/// The first fault in the edges of a file, of a graph of n vertices.
pub fn first_fault(edges: &[Edge], n: usize) -> Option<FileFault> {
    let fault = |i: usize, e: &Edge| match () {
        _ if e.label == 0 => {
            let reason = format!("edge from {} to {}: label 0", e.source, e.target);
            Some(FileFault::new(3, reason))
        }
        _ if e.source.max(e.target) as usize >= n => Some(FileFault::new(3, format!("edge {e}: no such vertex"))),
        _ if i > 0 && key(&edges[i - 1]) >= key(e) => Some(FileFault::new(4, format!("edge {e} does not ascend"))),
        _ => None,
    };
    edges.iter().enumerate().find_map(|(i, e)| fault(i, e))
}

fn read(file: &mut BitReader) -> Option<(Vec<Vertex>, Vec<Edge>)> {
    let n = file.take(16)?;
    let m = file.take(20)?;
    let vertices = (0..n).map(|_| vertex(file)).collect::<Option<_>>()?;
    let edges = (0..m).map(|_| take_edge(file)).collect::<Option<_>>()?;
    Some((vertices, edges))
}

fn vertex(file: &mut BitReader) -> Option<Vertex> {
    Some(Vertex { label: file.take(16)?, day: Day(file.take(16)?) })
}

pub fn put_edge(out: &mut BitWriter, e: &Edge) {
    out.put(e.source, 16);
    out.put(e.label, 8);
    out.put(e.target, 16);
}

pub fn take_edge(file: &mut BitReader) -> Option<Edge> {
    Some(Edge { source: file.take(16)?, label: file.take(8)?, target: file.take(16)? })
}
