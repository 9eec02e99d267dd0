//! How many items and connections of each kind there are.

use crate::document::Document;

/// Counts by kind, most first.
#[derive(Clone, Debug, Default)]
pub struct Summary {
    pub items: usize,
    pub connections: usize,
    pub item_kinds: Vec<(String, usize)>,
    pub connection_kinds: Vec<(String, usize)>,
}

impl Summary {
    pub fn of(document: &Document) -> Summary {
        let graph = match &document.hang {
            Some(hang) => &hang.graph,
            None => return Summary::default(),
        };
        let item = |label: u32| match label {
            0 => "without kind".to_string(),
            _ => document.item_kind(label).into_owned(),
        };
        Summary {
            items: graph.vertices.len(),
            connections: graph.edges.len(),
            item_kinds: counts(graph.vertices.iter().map(|v| v.label), item),
            connection_kinds: counts(graph.edges.iter().map(|e| e.label), |label| {
                document.connection_kind(label).into_owned()
            }),
        }
    }
}

fn counts(labels: impl Iterator<Item = u32>, name: impl Fn(u32) -> String) -> Vec<(String, usize)> {
    let mut by_label: Vec<usize> = Vec::new();
    for label in labels {
        let label = label as usize;
        if label >= by_label.len() {
            by_label.resize(label + 1, 0);
        }
        by_label[label] += 1;
    }
    let some = (0..).zip(by_label).filter(|&(_, count)| count > 0);
    let mut counts: Vec<(String, usize)> = some.map(|(label, count)| (name(label), count)).collect();
    counts.sort_by_key(|(_, count)| std::cmp::Reverse(*count));
    counts
}
