//! The change file: a count (20 bits), then changes of a bit, 1 to add and 0 to take away, and an
//! edge of source (16), label (8), target (16).

use std::fmt;
use std::ops::RangeInclusive;

use crate::packed::bits::{BitReader, BitWriter};
use crate::packed::edge::{Edge, FileFault};
use crate::packed::graph::{first_fault, key, put_edge, take_edge, Graph};

/// An edge that is added, or taken away.
#[derive(Clone, Copy, Debug, PartialEq, Eq)]
pub struct Change {
    pub adds: bool,
    pub edge: Edge,
}

/// The signs of the text form.
pub const ADD: &str = "+";
pub const TAKE: &str = "-";

impl fmt::Display for Change {
    fn fmt(&self, f: &mut fmt::Formatter) -> fmt::Result {
        let sign = if self.adds { ADD } else { TAKE };
        write!(f, "{sign} {}", self.edge)
    }
}

/// Changes to a graph. They ascend by edge.
#[derive(Clone, Debug, PartialEq, Eq)]
pub struct Changes {
    pub changes: Vec<Change>,
}

/// A rule that well-formed changes break, with the number that the engine refuses them with.
#[derive(Debug, PartialEq, Eq)]
pub struct Broken {
    /// The index of the change that breaks it; none if all of them together do.
    pub change: Option<usize>,
    pub refusal: u8,
    pub reason: String,
}

impl Changes {
    pub const COUNT: RangeInclusive<usize> = 0..=1_048_575;

    pub fn new(mut changes: Vec<Change>) -> Self {
        changes.sort_by_key(|change| key(&change.edge));
        Changes { changes }
    }

    /// The edges of a graph after the changes, both ascending.
    pub fn applied(&self, edges: &[Edge]) -> Vec<Edge> {
        let mut after: Vec<Edge> = Vec::with_capacity(edges.len() + self.changes.len());
        let mut changes = self.changes.iter().peekable();
        for e in edges {
            while let Some(change) = changes.peek().filter(|c| key(&c.edge) < key(e)) {
                after.extend(Some(change.edge).filter(|_| change.adds));
                changes.next();
            }
            match changes.peek() {
                Some(change) if change.edge == *e => {
                    after.extend(Some(*e).filter(|_| change.adds));
                    changes.next();
                }
                _ => after.push(*e),
            }
        }
        after.extend(changes.filter(|c| c.adds).map(|c| c.edge));
        after
    }

    pub fn to_bytes(&self) -> Vec<u8> {
        let mut out = BitWriter::default();
        out.put(self.changes.len() as u32, 20);
        for change in &self.changes {
            out.put(change.adds.into(), 1);
            put_edge(&mut out, &change.edge);
        }
        out.finish()
    }

    /// The changes of a file to a graph, or a fault of the file. Whether they apply is not asked.
    pub fn from_bytes(bytes: &[u8], graph: &Graph) -> Result<Self, FileFault> {
        let mut file = BitReader::new(bytes);
        let fault = |reason: &str| FileFault::new(27, reason);
        let changes = read(&mut file).ok_or_else(|| fault("the file is too short"))?;
        if file.is_long() {
            return Err(fault("the file is too long"));
        }
        if file.has_fill_set() {
            return Err(fault("a fill bit is set"));
        }
        let edges: Vec<Edge> = changes.iter().map(|change| change.edge).collect();
        match first_fault(&edges, graph.vertices.len()) {
            Some(edge) => Err(fault(&edge.reason)),
            None => Ok(Changes { changes }),
        }
    }
}

fn read(file: &mut BitReader) -> Option<Vec<Change>> {
    let count = file.take(20)?;
    (0..count).map(|_| change(file)).collect()
}

fn change(file: &mut BitReader) -> Option<Change> {
    let adds = file.take(1)? == 1;
    let edge = take_edge(file)?;
    Some(Change { adds, edge })
}

/// The first rule that changes, in any order, break: they add an edge that is there, take one away
/// that is not, or make more edges than a graph has.
pub fn broken_rule(graph: &Graph, changes: &[Change], words: &dyn Fn(&Edge) -> String) -> Option<Broken> {
    let present = |edge: &Edge| graph.edges.binary_search_by_key(&key(edge), key).is_ok();
    if let Some(i) = changes.iter().position(|c| c.adds == present(&c.edge)) {
        let Change { adds, edge } = changes[i];
        let edge = words(&edge);
        return Some(Broken {
            change: Some(i),
            refusal: 28,
            reason: match adds {
                true => format!("the graph has the edge {edge} already"),
                false => format!("the graph has no edge {edge}"),
            },
        });
    }
    let added = changes.iter().filter(|change| change.adds).count();
    let edges = graph.edges.len() + added - (changes.len() - added);
    let most = *Graph::LIMITS.edges.end();
    (edges > most).then(|| Broken {
        change: None,
        refusal: 29,
        reason: format!("the changes make {edges} edges, more than {most}"),
    })
}
