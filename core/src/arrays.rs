//! A hang from arrays, as other languages lend them.

use crate::day::Day;
use crate::document::{Document, Hang, Notes};
use crate::failure::Failure;
use crate::kinds::{Kinds, Written};
use crate::names::Names;
use crate::packed::edge::{Edge, EDGE_LABELS, VERTEX_LABELS};
use crate::packed::graph::{key, Graph, Vertex};
use crate::text::fault::Place;
use crate::text::words::{is_number, name_fault};

/// Items and connections. A kind is an index into a list of kinds; connections that are given twice are one.
#[derive(Clone, Debug, Default)]
pub struct Arrays {
    /// The name of each item.
    pub names: Vec<String>,
    pub item_kinds: Vec<Kind>,
    pub connection_kinds: Vec<Kind>,
    /// The day of each item, as the text form has it, or nothing; none at all where no item has one.
    pub days: Vec<String>,
    /// The kind of each item, [`NO_KIND`] where it has none.
    pub kinds: Vec<u32>,
    /// Source, kind and target of each connection.
    pub connections: Vec<[u32; 3]>,
}

/// A kind by its name, or by its number.
#[derive(Clone, Debug, PartialEq, Eq)]
pub enum Kind {
    Number(u32),
    Name(String),
}

/// The kind of an item that has none.
pub const NO_KIND: u32 = u32::MAX;

/// Arrays have no places of a text.
const NOWHERE: Place = Place { text: 0, start: 0, end: 0 };

fn no<T>(sentence: String) -> Result<T, Failure> {
    Err(Failure::Usage(sentence))
}

/// The document with the hang of some arrays.
pub fn document(arrays: &Arrays) -> Result<Document, Failure> {
    let mut document = Document::default();
    let labels = deal(&mut document.item_kinds, &arrays.item_kinds, "item", 1..=*VERTEX_LABELS.end())?;
    let connection_labels = deal(&mut document.connection_kinds, &arrays.connection_kinds, "connection", EDGE_LABELS)?;
    let names = named(&arrays.names)?;
    let (vertices, numbered_days) = vertices(arrays, &labels)?;
    let edges = edges(arrays, &connection_labels)?;
    let graph = Graph { vertices, edges };
    document.hang = Some(Hang { graph, names, numbered_days, notes: Notes::default(), from_tables: false });
    Ok(document)
}

/// The number of each kind of a list.
fn deal(
    kinds: &mut Kinds,
    list: &[Kind],
    what: &str,
    range: std::ops::RangeInclusive<u32>,
) -> Result<Vec<u32>, Failure> {
    let mut written = Vec::with_capacity(list.len());
    for kind in list {
        written.push(match kind {
            Kind::Number(number) if range.contains(number) => {
                kinds.met_number(*number);
                Written::Number(*number)
            }
            Kind::Number(number) => {
                let (first, last) = (range.start(), range.end());
                return no(format!("the kind {number} of {what}s is not within {first} to {last}; or give it a name"));
            }
            Kind::Name(name) => match (crate::text::kind_fault(name), kinds.met(name, NOWHERE)) {
                (None, Some(written)) => written,
                (Some(reason), _) => return no(reason),
                (None, None) => return no(format!("'{name}' is no kind of {what}")),
            },
        });
    }
    if kinds.deal(range.clone()).is_err() {
        return no(format!("more than {} kinds of {what}s", range.end()));
    }
    Ok(written.into_iter().map(|written| kinds.number(written)).collect())
}

fn named(list: &[String]) -> Result<Names, Failure> {
    let most = *Graph::LIMITS.vertices.end();
    if list.len() > most {
        return no(format!("{} items, of {most} at most", list.len()));
    }
    let mut names = Names::default();
    for (i, name) in list.iter().enumerate() {
        if let Some(reason) = name_fault(name) {
            return no(format!("item {i} has the name {name:?}: {reason}"));
        }
        if let Err(first) = names.add(name) {
            return no(format!("items {first} and {i} are both named '{name}'"));
        }
    }
    Ok(names)
}

/// The items, and those whose day is a number.
fn vertices(arrays: &Arrays, labels: &[u32]) -> Result<(Vec<Vertex>, Vec<u32>), Failure> {
    let Arrays { names, kinds, days, .. } = arrays;
    if kinds.len() != names.len() || !(days.is_empty() || days.len() == names.len()) {
        return no(format!("{} names, {} kinds and {} days of items", names.len(), kinds.len(), days.len()));
    }
    let mut vertices = Vec::with_capacity(names.len());
    let mut numbered_days = Vec::new();
    for (i, &kind) in kinds.iter().enumerate() {
        let label = match labels.get(kind as usize) {
            Some(&label) => label,
            None if kind == NO_KIND => 0,
            None => return no(format!("'{}' has kind {kind} of {}", names[i], labels.len())),
        };
        let day = match days.get(i).map_or("", String::as_str) {
            "" => Day::NONE,
            day => match Day::read(day) {
                Ok(read) => {
                    numbered_days.extend(Some(i as u32).filter(|_| is_number(day)));
                    read
                }
                Err(reason) => return no(format!("'{}': {reason}", names[i])),
            },
        };
        vertices.push(Vertex { label, day });
    }
    Ok((vertices, numbered_days))
}

/// The connections, ascending, each once.
fn edges(arrays: &Arrays, labels: &[u32]) -> Result<Vec<Edge>, Failure> {
    let count = arrays.names.len();
    let mut edges = Vec::with_capacity(arrays.connections.len());
    for &[source, kind, target] in &arrays.connections {
        let label = match labels.get(kind as usize) {
            Some(&label) => label,
            None => return no(format!("a connection has kind {kind} of {}", labels.len())),
        };
        if source.max(target) as usize >= count {
            return no(format!("a connection joins items {source} and {target} of {count}"));
        }
        edges.push(Edge { source, label, target });
    }
    edges.sort_unstable_by_key(key);
    edges.dedup();
    let most = *Graph::LIMITS.edges.end();
    if edges.len() > most {
        return no(format!("{} connections, of {most} at most", edges.len()));
    }
    Ok(edges)
}
