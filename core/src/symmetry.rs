//! Mirror images: the ways in which a pattern looks the same, and pairs that leave each place once.

use crate::packed::pair::Pair;
use crate::packed::query::Query;

/// A way to exchange the vertices: the vertex in whose place each one comes.
type Exchange = Vec<u8>;

/// All exchanges of vertices after which the query is the same: kinds, days, edges and pairs.
pub fn exchanges(query: &Query) -> Vec<Exchange> {
    let mut found = Vec::new();
    let mut images = Vec::new();
    extend(query, &mut images, &mut found);
    found
}

fn extend(query: &Query, images: &mut Exchange, found: &mut Vec<Exchange>) {
    let v = images.len();
    if v == query.vertices.len() {
        found.push(images.clone());
        return;
    }
    for image in 0..query.vertices.len() as u8 {
        if images.contains(&image) || query.vertices[v] != query.vertices[usize::from(image)] {
            continue;
        }
        images.push(image);
        if keeps(query, images) {
            extend(query, images, found);
        }
        images.pop();
    }
}

/// The edges and pairs between the last vertex and those before it are those between their images.
fn keeps(query: &Query, images: &[u8]) -> bool {
    let last = images.len() as u32 - 1;
    let image = |v: u32| u32::from(images[v as usize]);
    (0..last).all(|v| {
        [(v, last), (last, v)].iter().all(|&(a, b)| {
            let edges =
                |a: u32, b: u32| query.edges.iter().filter(move |e| e.source == a && e.target == b).map(|e| e.label);
            let is_pair = |low: u32, high: u32| query.pairs.contains(&Pair { low, high });
            edges(a, b).eq(edges(image(a), image(b))) && is_pair(a, b) == is_pair(image(a), image(b))
        })
    })
}

/// Pairs that, added to the query, leave each place once: of the vertices that can come in a vertex's place it has the lowest
/// item, vertex by vertex, as far as they are not settled yet. Those that follow from others are left out.
pub fn pairs(query: &Query) -> Vec<Pair> {
    let mut group = exchanges(query);
    let mut pairs: Vec<Pair> = Vec::new();
    for v in 0..query.vertices.len() {
        let mut orbit: Vec<u8> = group.iter().map(|exchange| exchange[v]).collect();
        orbit.sort_unstable();
        orbit.dedup();
        for &u in &orbit {
            if usize::from(u) != v {
                pairs.push(Pair { low: v as u32, high: u32::from(u) });
            }
        }
        group.retain(|exchange| usize::from(exchange[v]) == v);
    }
    let all = pairs.clone();
    let follows = |p: &Pair| all.iter().any(|a| a.low == p.low && all.contains(&Pair { low: a.high, high: p.high }));
    pairs.retain(|p| !follows(p));
    pairs
}

#[cfg(test)]
mod tests {
    use super::*;
    use crate::day::Days;
    use crate::packed::edge::Edge;
    use crate::packed::query::Vertex;

    fn query(n: usize, edges: &[(u32, u32)]) -> Query {
        let edges = edges.iter().map(|&(source, target)| Edge { source, label: 1, target });
        Query::new(vec![Vertex { label: 0, days: Days::ALL }; n], edges.collect(), Vec::new())
    }

    fn both(n: usize, edges: &[(u32, u32)]) -> Query {
        let back = edges.iter().map(|&(a, b)| (b, a));
        query(n, &edges.iter().copied().chain(back).collect::<Vec<_>>())
    }

    fn added(query: &Query) -> Vec<(u32, u32)> {
        pairs(query).iter().map(|p| (p.low, p.high)).collect()
    }

    #[test]
    fn a_fork_a_triangle_and_a_path() {
        assert_eq!(added(&query(3, &[(0, 1), (0, 2)])), [(1, 2)]);
        assert_eq!(added(&query(3, &[(0, 1), (0, 2), (1, 2)])), []);
        assert_eq!(added(&both(3, &[(0, 1), (0, 2), (1, 2)])), [(0, 1), (1, 2)]);
        assert_eq!(added(&both(4, &[(0, 1), (1, 2), (2, 3), (3, 0)])), [(0, 1), (0, 2), (1, 3)]);
    }

    /// A vertex has one pair below it at most, so that they fit beside each other.
    #[test]
    fn the_whole_group_of_eight() {
        let all: Vec<(u32, u32)> = (1..8).map(|i| (0, i)).collect();
        let star = query(8, &all);
        assert_eq!(exchanges(&star).len(), 5_040);
        assert_eq!(added(&star), [(1, 2), (2, 3), (3, 4), (4, 5), (5, 6), (6, 7)]);
    }

    #[test]
    fn pairs_that_are_there_count() {
        let mut fork = query(3, &[(0, 1), (0, 2)]);
        fork.pairs = vec![Pair { low: 1, high: 2 }];
        assert_eq!(exchanges(&fork).len(), 1);
        assert_eq!(added(&fork), []);
    }
}
