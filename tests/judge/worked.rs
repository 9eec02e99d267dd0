//! The graphs and queries of the document's worked cases, and graphs for edges of any label.
use super::graph::Graph;
use super::query::Query;

/// Unlabelled, with edges of label 1.
pub fn graph(n: usize, pairs: &[(u16, u16)]) -> Graph {
    Graph::new(vec![0; n], pairs.iter().map(|&(s, t)| (s, 1, t)).collect())
}

pub fn g() -> Graph {
    graph(4, &[(0, 1), (0, 2), (1, 2), (1, 3), (2, 3)])
}

pub fn k() -> Graph {
    graph(5, &[(0, 2), (0, 3), (1, 2), (1, 3), (2, 3), (2, 4), (3, 4)])
}

/// G's pairs, of which 0→1 and 1→2 have two labels each. By labels the list of 0 is 1, 2, 1, and that of 1 is 3, 2, 2.
pub fn doubled() -> Graph {
    Graph::new(vec![0; 4], vec![(0, 1, 1), (0, 1, 2), (0, 2, 1), (1, 1, 3), (1, 2, 2), (1, 3, 2), (2, 2, 3)])
}

/// One pair, 0→1, of every label.
pub fn bundle() -> Graph {
    Graph::new(vec![0; 2], (1..=255).map(|label| (0, label, 1)).collect())
}

/// Two pairs, 0→1 and 0→2, of every label.
pub fn two_bundles() -> Graph {
    Graph::new(vec![0; 3], (1..=255).flat_map(|label| [(0, label, 1), (0, label, 2)]).collect())
}

/// Q.
pub fn triangle() -> Query {
    Query::plain(3, &[(0, 1), (0, 2), (1, 2)])
}

/// X.
pub fn diamond() -> Query {
    Query::plain(4, &[(0, 1), (0, 2), (1, 2), (1, 3), (2, 3)])
}

/// Vertex 0 with edges to all others.
pub fn star(n: usize) -> Query {
    Query::plain(n, &(1..n).map(|v| (0, v)).collect::<Vec<_>>())
}

/// The same as a graph: a pin that so many motors hang on.
pub fn pin(motors: u16) -> Graph {
    graph(1 + usize::from(motors), &(1..=motors).map(|motor| (0, motor)).collect::<Vec<_>>())
}
