//! Files that the program `trace` is run on: the worked ones, and those at its bounds.
use super::graph::{Edge, Graph};
use super::plan::{self, Operator};
use super::program::Files;
use super::query::Query;
use super::worked::{g, graph, triangle};
use Operator::{Extend, Join, Scan};

pub const WORKED: &str = "matches 2 cost 13 build 0 probe 0\n0 1 2\n1 2 3\n";

/// G, Q and P.
pub fn worked() -> Files {
    files(&g(), &triangle(), &[Scan(0), Extend(2)])
}

pub fn files(graph: &Graph, query: &Query, operators: &[Operator]) -> Files {
    [graph.file(), query.file(), plan::file(operators)]
}

/// A file with zeros to this length.
pub fn stretched(file: &[u8], length: usize) -> Vec<u8> {
    let mut file = file.to_vec();
    file.resize(length, 0);
    file
}

/// G, Q and P, with another file in place of one.
pub fn with(at: usize, file: Vec<u8>) -> Files {
    let mut files = worked();
    files[at] = file;
    files
}

/// A graph of so many vertices and edges: from each vertex at most five edges, of labels 1 to 5, none to itself.
pub fn sized(n: u16, m: u16) -> Graph {
    assert!(m <= 5 * n);
    let edges = (0..m).map(|i| (i / 5, 1 + (i % 5) as u8, (i / 5 + 7 + i % 5) % n)).collect();
    Graph::as_given(vec![0; n.into()], edges)
}

/// Edges of label 1, scanned: so many rows.
pub fn scan(rows: u16) -> Files {
    let pairs: Vec<(u16, u16)> = (0..rows).map(|i| (i / 33, 33 + i % 33)).collect();
    files(&graph(66, &pairs), &Query::plain(2, &[(0, 1)]), &[Scan(0)])
}

fn two_labels() -> Query {
    Query::new(vec![0; 3], vec![(0, 1, 1), (1, 2, 2)])
}

/// Edges of label 1 into vertex 40 and of label 2 out of it.
fn through_40(into: u16, out_of: u16) -> Vec<Edge> {
    (0..into).map(|s| (s, 1, 40)).chain((0..out_of).map(|t| (40, 2, 41 + t))).collect()
}

/// So many rows, extended by as many new vertices each.
pub fn extend(rows: u16, each: u16) -> Files {
    files(&Graph::new(vec![0; 80], through_40(rows, each)), &two_labels(), &[Scan(0), Extend(2)])
}

/// So many edges of label 1, joined with some of label 2: so many of both meet in vertex 40, and give as many rows as their product.
pub fn join(build: u16, into: u16, out_of: u16) -> Files {
    let mut edges = through_40(into, out_of);
    edges.extend((0..build - into).map(|i| (i / 16, 1, 64 + i % 16)));
    files(&Graph::new(vec![0; 80], edges), &two_labels(), &[Scan(0), Scan(1), Join])
}

/// Four extends with long sets and few rows: vertex 0 has so many edges of label 1, by which three of them go, and so many of label 2. Only
/// item 5 has the label of query vertex 1, and the pairs leave it those below, each below the one before: one row at the end.
pub fn sets(first: u16, last: u16) -> Files {
    let edges = (1..=first).map(|t| (0, 1, t)).chain((1..=last).map(|t| (0, 2, t))).collect();
    let labels = (0..=first.max(last)).map(|v| if v == 5 { 7 } else { 0 }).collect();
    let star = (1..6).map(|v| (0, v, if v < 5 { 1 } else { 2 })).collect();
    let query = Query::new(vec![0, 7, 0, 0, 0, 0], star).paired(&[(2, 1), (3, 2), (4, 3), (5, 4)]);
    files(&Graph::new(labels, edges), &query, &[Scan(0), Extend(2), Extend(3), Extend(4), Extend(5)])
}
