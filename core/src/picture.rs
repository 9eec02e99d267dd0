//! A hang as a picture, described for Graphviz or drawn: what carries stands above what it carries.

mod svg;

use std::collections::HashSet;
use std::fmt::Write;

use crate::document::{Document, Hang};
use crate::find::{places, Found};
use crate::packed::edge::{Edge, ANY_LABEL};

/// Colours of kinds, readable with black letters.
const COLOURS: [&str; 12] = [
    "#8dd3c7", "#ffffb3", "#bebada", "#fdb462", "#80b1d3", "#b3de69", "#fccde5", "#d9d9d9", "#ccebc5", "#ffed6f",
    "#e5c494", "#a6cee3",
];

/// Hangs of more items than this are drawn in part.
pub const MOST: usize = 200;

/// Items and connections of the places that are marked.
struct Marks {
    items: HashSet<u32>,
    edges: HashSet<Edge>,
}

impl Marks {
    fn of(edges: &[Edge], found: Option<&Found>, most: usize) -> Marks {
        let mut marks = Marks { items: HashSet::new(), edges: HashSet::new() };
        let found = match found {
            Some(found) => found,
            None => return marks,
        };
        for row in found.rows() {
            if marks.items.len() >= most {
                break;
            }
            marks.items.extend(row);
            for e in &found.query.edges {
                let (source, target) = (row[e.source as usize], row[e.target as usize]);
                let first = edges.partition_point(|d| d.source < source);
                let fits = |d: &&Edge| d.target == target && (e.label == ANY_LABEL || d.label == e.label);
                marks.edges.extend(edges[first..].iter().take_while(|d| d.source == source).filter(fits));
            }
        }
        marks
    }
}

/// What is drawn of a hang.
pub struct Drawing<'d> {
    document: &'d Document,
    hang: &'d Hang,
    /// Ascending.
    items: Vec<u32>,
    /// Those that join drawn items.
    edges: Vec<&'d Edge>,
    marks: Marks,
    caption: String,
}

/// The hang in Graphviz's language, with the places of a pattern marked.
pub fn dot(document: &Document, hang: &Hang, found: Option<&Found>, all: bool) -> String {
    Drawing::of(document, hang, found, all).dot()
}

impl<'d> Drawing<'d> {
    /// A hang with the places of a pattern marked. Of more than [`MOST`] items only the marked ones and their
    /// neighbours are drawn, unless all are asked for.
    pub fn of(document: &'d Document, hang: &'d Hang, found: Option<&Found>, all: bool) -> Drawing<'d> {
        let edges = &hang.graph.edges;
        let count = hang.graph.vertices.len();
        let in_part = count > MOST && !all;
        let marks = Marks::of(edges, found, if in_part { MOST } else { usize::MAX });
        let items: Vec<u32> = if in_part { neighbours(edges, &marks) } else { (0..count as u32).collect() };
        let is_drawn: HashSet<u32> = items.iter().copied().collect();
        let drawn = |e: &&Edge| is_drawn.contains(&e.source) && is_drawn.contains(&e.target);
        let caption = caption(found, count, items.len());
        Drawing { document, hang, edges: edges.iter().filter(drawn).collect(), items, marks, caption }
    }

    /// In Graphviz's language.
    pub fn dot(&self) -> String {
        let mut out = String::from(
            "digraph hang {\n  rankdir=TB;\n  node [shape=box, style=filled, fontname=\"sans-serif\", fontsize=11];\n  \
             edge [fontname=\"sans-serif\", fontsize=9, color=\"#666666\"];\n",
        );
        let _ = writeln!(out, "  labelloc=t;\n  fontname=\"sans-serif\";\n  label={};", text(&self.caption));
        for &item in &self.items {
            let vertex = &self.hang.graph.vertices[item as usize];
            let name = self.hang.item(item);
            let label = match vertex.label {
                0 => name.into_owned(),
                kind => format!("{name}\n{}", self.document.item_kind(kind)),
            };
            let mark = if self.marks.items.contains(&item) { ", color=\"#cc0000\", penwidth=3" } else { "" };
            let _ = writeln!(out, "  n{item} [label={}, fillcolor=\"{}\"{mark}];", text(&label), colour(vertex.label));
        }
        for e in &self.edges {
            let mark = if self.marks.edges.contains(*e) { ", color=\"#cc0000\", penwidth=2" } else { "" };
            let kind = self.document.connection_kind(e.label);
            let _ = writeln!(out, "  n{} -> n{} [label={}{mark}];", e.source, e.target, text(&kind));
        }
        out.push_str("}\n");
        out
    }
}

fn colour(label: u32) -> &'static str {
    match label {
        0 => "#ffffff",
        n => COLOURS[(n as usize - 1) % COLOURS.len()],
    }
}

/// The marked items and those that a connection joins to one, ascending, twice the bound at most.
fn neighbours(edges: &[Edge], marks: &Marks) -> Vec<u32> {
    let mut near: HashSet<u32> = marks.items.clone();
    for e in edges {
        if near.len() >= 2 * MOST.max(marks.items.len()) {
            break;
        }
        if marks.items.contains(&e.source) || marks.items.contains(&e.target) {
            near.extend([e.source, e.target]);
        }
    }
    let mut near: Vec<u32> = near.into_iter().collect();
    near.sort_unstable();
    near
}

fn caption(found: Option<&Found>, count: usize, drawn: usize) -> String {
    let part = if drawn < count { format!("{drawn} of {count} items") } else { format!("{count} items") };
    match found {
        Some(found) => {
            let sentence = found.pattern.sentence.as_deref().unwrap_or(found.pattern.title());
            format!("{sentence}\n{} marked in red; {part}", places(found.places()))
        }
        None => part,
    }
}

/// A text in Graphviz's language.
fn text(value: &str) -> String {
    let mut out = String::from("\"");
    for c in value.chars() {
        match c {
            '"' => out.push_str("\\\""),
            '\\' => out.push_str("\\\\"),
            '\n' => out.push_str("\\n"),
            c => out.push(c),
        }
    }
    out.push('"');
    out
}
