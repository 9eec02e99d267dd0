//! The plan that is to be drawn, by the words of its rules.
use super::graph::Graph;
use super::plan::Operator;
use super::query::Query;

/// How many data edges an edge label of a query has: label 0 has them all.
fn edges_of(graph: &Graph, label: u8) -> usize {
    graph.edges.iter().filter(|edge| label == 0 || edge.1 == label).count()
}

/// How many query edges run between a vertex and a set, in either direction.
fn degree(query: &Query, v: usize, set: &[usize]) -> usize {
    let out = query.edges.iter().filter(|edge| edge.0 == v && set.contains(&edge.1)).count();
    let into = query.edges.iter().filter(|edge| edge.1 == v && set.contains(&edge.0)).count();
    out + into
}

/// The scan of the edge whose label has the fewest data edges, then the lowest index; then by the uncovered vertex with the most query
/// edges to the covered ones, then the lowest number.
pub fn plan(graph: &Graph, query: &Query) -> Vec<Operator> {
    let mut by_size: Vec<(usize, usize)> =
        query.edges.iter().enumerate().map(|(i, edge)| (edges_of(graph, edge.2), i)).collect();
    by_size.sort();
    let scan = by_size[0].1;
    let mut plan = vec![Operator::Scan(scan)];
    let mut set = vec![query.edges[scan].0, query.edges[scan].1];
    for _ in 2..query.vertices() {
        let mut by_degree: Vec<(usize, usize)> = (0..query.vertices())
            .filter(|v| !set.contains(v))
            .map(|v| (query.edges.len() - degree(query, v, &set), v))
            .collect();
        by_degree.sort();
        let v = by_degree[0].1;
        plan.push(Operator::Extend(v));
        set.push(v);
    }
    plan
}
