//! Why a list is empty.

use crate::day::Days;
use crate::document::{Document, Pattern};
use crate::find::{Found, Loaded};
use crate::packed::edge::{Edge, ANY_LABEL};
use crate::packed::graph;
use crate::packed::pair::contradiction;
use crate::packed::plan::Operator;
use crate::packed::query;

/// The first thing that no item, or no pair of items, of the hang has; else the operator that found nothing.
pub fn why(loaded: &Loaded, found: &Found) -> String {
    let pattern = &found.pattern;
    let document = loaded.document;
    let items = &loaded.hang.graph.vertices;
    for (v, asked) in found.query.vertices.iter().enumerate() {
        if !items.iter().any(|item| fits(asked, item)) {
            return no_item(document, pattern, v as u32, asked, items);
        }
    }
    let joins = |e: &Edge, d: &Edge| {
        (e.label == ANY_LABEL || e.label == d.label)
            && d.source != d.target
            && fits(&found.query.vertices[e.source as usize], &items[d.source as usize])
            && fits(&found.query.vertices[e.target as usize], &items[d.target as usize])
    };
    for e in &found.query.edges {
        if !loaded.edges().iter().any(|d| joins(e, d)) {
            return no_connection(loaded, pattern, e);
        }
    }
    if contradiction(&found.query.pairs).is_some() {
        return "the pairs contradict each other, and no items satisfy them all".into();
    }
    let empty = found.records.iter().zip(&found.plan.operators).find(|(record, _)| record.rows == 0);
    match empty {
        Some((_, Operator::Extend(v))) => format!(
            "each connection occurs by itself, but where the others are found no item is left for {}",
            pattern.vertex(*v)
        ),
        _ => "each connection occurs by itself, but they do not occur together".into(),
    }
}

fn fits(asked: &query::Vertex, item: &graph::Vertex) -> bool {
    let Days { first, last } = asked.days;
    (asked.label == 0 || asked.label == item.label) && first <= item.day && item.day <= last
}

fn no_item(document: &Document, pattern: &Pattern, v: u32, asked: &query::Vertex, items: &[graph::Vertex]) -> String {
    let name = pattern.vertex(v);
    let of_kind = items.iter().filter(|item| asked.label == 0 || asked.label == item.label).count();
    let kind = document.item_kind(asked.label);
    match (asked.label, of_kind) {
        (_, 0) if items.is_empty() => "the hang has no item".into(),
        (0, n) => format!("no item fits {name}: of {n} items none was inspected {}", asked.days),
        (_, 0) => format!("no item fits {name}: the hang has none of kind {kind}"),
        (_, n) => format!("no item fits {name}: of {n} of kind {kind} none was inspected {}", asked.days),
    }
}

fn no_connection(loaded: &Loaded, pattern: &Pattern, e: &Edge) -> String {
    let document = loaded.document;
    let of_kind = loaded.edges().iter().filter(|d| e.label == ANY_LABEL || d.label == e.label).count();
    let edge = document.pattern_edge(pattern, e);
    let kind = document.connection_kind(e.label);
    match (e.label, of_kind) {
        (_, 0) if loaded.edges().is_empty() => format!("no two items have {edge}: the hang has no connection"),
        (ANY_LABEL, n) => format!("no two items that fit have {edge}: the hang has {n} connections, all of others"),
        (_, 0) => format!("no two items have {edge}: the hang has no connection of kind {kind}"),
        (_, n) => format!("no two items that fit have {edge}: the hang has {n} of kind {kind}, all of others"),
    }
}
