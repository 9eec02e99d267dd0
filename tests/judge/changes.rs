//! Changes to a graph: their files, and what becomes of an old store, by the words of their rules.
use super::bits::{pack, Reader};
use super::graph::{Edge, Graph};
use super::random::Random;
use std::collections::BTreeSet;

/// An edge that is added, or taken away.
#[derive(Clone, Copy, Debug, PartialEq, Eq)]
pub struct Change {
    pub adds: bool,
    pub edge: Edge,
}

pub fn add(edge: Edge) -> Change {
    Change { adds: true, edge }
}

pub fn take(edge: Edge) -> Change {
    Change { adds: false, edge }
}

/// The file, as the changes stand.
pub fn file(changes: &[Change]) -> Vec<u8> {
    let mut fields = vec![(changes.len() as u64, 20)];
    for change in changes {
        let (source, label, target) = change.edge;
        fields.extend([(change.adds.into(), 1), (source.into(), 16), (label.into(), 8), (target.into(), 16)]);
    }
    pack(fields)
}

/// 27, or the changes to a graph of so many vertices.
pub fn read(file: &[u8], vertices: usize) -> Result<Vec<Change>, u32> {
    let mut reader = Reader::new(file);
    let mut field = |width| reader.field(width).ok_or(27u32);
    let mut changes: Vec<Change> = Vec::new();
    for _ in 0..field(20)? {
        let adds = field(1)? == 1;
        changes.push(Change { adds, edge: (field(16)? as u16, field(8)? as u8, field(16)? as u16) });
    }
    let unknown = |v: u16| usize::from(v) >= vertices;
    let bad = |change: &Change| {
        let (source, label, target) = change.edge;
        unknown(source) || unknown(target) || label == 0
    };
    if !reader.ends() || changes.iter().any(bad) || changes.windows(2).any(|two| two[0].edge >= two[1].edge) {
        return Err(27);
    }
    Ok(changes)
}

/// 28 or 29, or the edited graph: labels and days stay.
pub fn edited(graph: &Graph, changes: &[Change]) -> Result<Graph, u32> {
    let mut edges: BTreeSet<Edge> = graph.edges.iter().copied().collect();
    for change in changes {
        let changed = if change.adds { edges.insert(change.edge) } else { edges.remove(&change.edge) };
        if !changed {
            return Err(28);
        }
    }
    if edges.len() > 1_048_575 {
        return Err(29);
    }
    Ok(Graph { edges: edges.into_iter().collect(), ..graph.clone() })
}

/// The refusal of an old store, a change file and a new store of so many words; or the edited graph.
pub fn apply(old: &[u32], file: &[u8], words: usize) -> Result<Graph, u32> {
    let graph = Graph::of_store(old).ok_or(19u32)?;
    let changed = edited(&graph, &read(file, graph.vertices())?)?;
    if words < changed.store_size() {
        return Err(5);
    }
    Ok(changed)
}

/// The changes that undo these.
pub fn reverse(changes: &[Change]) -> Vec<Change> {
    changes.iter().map(|change| Change { adds: !change.adds, ..*change }).collect()
}

/// Changes that apply, of which up to so many take an edge away and up to so many add one; the first and the last edge are taken
/// often, and edges are added at the first and at the last vertex.
pub fn random(r: &Random, graph: &Graph, taken: usize, added: usize) -> Vec<Change> {
    let (n, m) = (graph.vertices(), graph.edges.len());
    let mut edges = BTreeSet::new();
    for _ in 0..taken {
        let at = match r.below(12) {
            0 => 0,
            1 => m.saturating_sub(1),
            _ => r.below(m.max(1)),
        };
        edges.extend(graph.edges.get(at).copied());
    }
    let end = || match r.below(12) {
        0 => 0,
        1 => n as u16 - 1,
        _ => r.below(n) as u16,
    };
    for _ in 0..if n == 0 { 0 } else { added } {
        let label = if r.chance(1, 4) { 1 + r.below(255) } else { 1 + r.below(4) };
        let edge = (end(), label as u8, end());
        if graph.edges.binary_search(&edge).is_err() {
            edges.insert(edge);
        }
    }
    let present = |edge: &Edge| graph.edges.binary_search(edge).is_ok();
    edges.into_iter().map(|edge| Change { adds: !present(&edge), edge }).collect()
}

/// The same in numbers of every kind: none, one, few beside the edges, as many as there are, all edges taken away.
pub fn random_many(r: &Random, graph: &Graph) -> Vec<Change> {
    let m = graph.edges.len();
    let few = (0..).take_while(|k| k * k <= m).count() - 1;
    match r.below(8) {
        0 => Vec::new(),
        1 => random(r, graph, 1, 0),
        2 => random(r, graph, 0, 1),
        3 | 4 => {
            let taken = r.below(few + 1);
            random(r, graph, taken, few - taken)
        }
        5 => random(r, graph, few + 1, few + 1),
        6 => random(r, graph, r.below(m + 3), r.below(m + 3)),
        _ => {
            let mut changes = random(r, graph, 0, r.below(4));
            changes.extend(graph.edges.iter().copied().map(take));
            changes.sort_by_key(|change| change.edge);
            changes
        }
    }
}
