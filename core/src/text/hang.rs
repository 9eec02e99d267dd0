//! Items, connections and changes, with their names resolved.

use std::borrow::Cow;
use std::collections::HashMap;

use crate::document::{Document, Hang};
use crate::kinds::Written;
use crate::names::Names;
use crate::packed::change::{self, Change, Changes};
use crate::packed::edge::{Edge, ANY, EDGE_LABELS};
use crate::packed::graph::{Graph, Vertex};
use crate::text::draft::{Block, Draft, DraftEdge, End, Line};
use crate::text::fault::{Fault, Place};
use crate::text::lines::{no_form, place};
use crate::text::words::{is_number, number, Form, Word};

/// Why a word is no item.
pub enum NotFound {
    /// Nothing has this name or number.
    Unknown,
    /// One thing has this name, and another this number.
    Both,
}

/// The thing that a word names, or is the number of.
pub fn resolve(names: &Names, word: Word, spelled: &str) -> Result<u32, NotFound> {
    let named = names.find(spelled);
    if word.form == Form::Quoted || !is_number(spelled) {
        return named.ok_or(NotFound::Unknown);
    }
    let numbered = spelled.parse().ok().filter(|&n: &u32| (n as usize) < names.len());
    match (named, numbered) {
        (Some(a), Some(b)) if a != b => Err(NotFound::Both),
        (Some(a), _) | (None, Some(a)) => Ok(a),
        (None, None) => Err(NotFound::Unknown),
    }
}

impl Draft<'_> {
    /// The number of an item, or nothing after a fault was told.
    fn find_item(&mut self, text: u32, word: Word) -> Option<u32> {
        let spelled = word.text(self.source(text));
        match resolve(&self.names, word, &spelled) {
            Ok(item) => Some(item),
            Err(fault) => {
                self.no_item(place(text, word), &spelled, fault);
                None
            }
        }
    }

    /// Says that a word is no item.
    pub fn no_item(&mut self, at: Place, spelled: &str, fault: NotFound) {
        match fault {
            NotFound::Both => {
                let fault = Fault::error(at, format!("'{spelled}' is the name of one item and the number of another"));
                self.faults.push(fault.help(format!("write \"{spelled}\" for the one of that name")));
            }
            NotFound::Unknown => {
                let reason = format!("no item '{spelled}' has been declared");
                let names = std::mem::take(&mut self.names);
                self.unknown(at, reason, spelled, names.iter().map(|(_, name)| name));
                self.names = names;
            }
        }
    }

    /// Names that are also the number of an item without a name could mean either in a list.
    fn check_digit_names(&mut self) {
        for (item, at) in std::mem::take(&mut self.digit_names) {
            let name = self.names.get(item).unwrap_or_default().to_string();
            let number = name.parse().ok().filter(|&n: &u32| n.to_string() == name && n != item);
            let other = number.filter(|&n| (n as usize) < self.names.len() && self.names.get(n).is_none());
            if other.is_some() {
                self.error(at, format!("'{name}' is also the number of an item without a name"));
            }
        }
    }

    pub fn resolve_hang(&mut self) -> Option<Hang> {
        if self.graph_head.is_none() && !self.from_tables {
            return None;
        }
        self.check_digit_names();
        let edges = self.resolve_edges();
        let vertices = self
            .items
            .iter()
            .map(|item| Vertex { label: item.kind.map_or(0, |kind| self.item_kinds.number(kind)), day: item.day });
        Some(Hang {
            graph: Graph { vertices: vertices.collect(), edges },
            names: std::mem::take(&mut self.names),
            numbered_days: std::mem::take(&mut self.numbered_days),
            notes: std::mem::take(&mut self.notes),
            from_tables: self.from_tables,
        })
    }

    /// The connections in ascending order.
    fn resolve_edges(&mut self) -> Vec<Edge> {
        let drafts = std::mem::take(&mut self.edges);
        let mut keys: Vec<(u64, u32)> = Vec::with_capacity(drafts.len());
        // Lines of one source often stand together.
        let mut last: Option<(&str, u32)> = None;
        for (i, draft) in drafts.iter().enumerate() {
            let source = match (draft.source, last) {
                (End::Word(word), Some((raw, item)))
                    if word.form == Form::Bare && word.raw(self.source(draft.text)) == raw =>
                {
                    Some(item)
                }
                (end, _) => self.end(draft, end),
            };
            if let (End::Word(word), Some(item)) = (draft.source, source) {
                last = Some((word.raw(self.source(draft.text)), item)).filter(|_| word.form == Form::Bare);
            }
            let target = self.end(draft, draft.target);
            if let (Some(source), Some(target)) = (source, target) {
                let label = self.connection_kinds.number(draft.kind);
                keys.push((u64::from(source) << 32 | u64::from(label) << 16 | u64::from(target), i as u32));
            }
        }
        keys.sort_unstable();
        for pair in keys.windows(2) {
            if pair[0].0 == pair[1].0 {
                let [first, second] = [pair[0].1, pair[1].1].map(|i| whole(&drafts[i as usize]));
                let line = self.line_of(first, second.text);
                self.error(second, format!("the edge stands at {line} already"));
            }
        }
        let most = *Graph::LIMITS.edges.end();
        if let Some(&(_, i)) = keys.get(most) {
            let last = drafts.last().map_or_else(|| whole(&drafts[i as usize]), whole);
            self.error(last, format!("more than {most} edges"));
        }
        let edge = |key: u64| Edge {
            source: (key >> 32) as u32,
            label: (key >> 16 & 0xffff) as u32,
            target: (key & 0xffff) as u32,
        };
        keys.iter().map(|&(key, _)| edge(key)).collect()
    }

    fn end(&mut self, draft: &DraftEdge, end: End) -> Option<u32> {
        match end {
            End::Item(item) => Some(item),
            End::Word(word) => self.find_item(draft.text, word),
        }
    }

    pub fn resolve_changes(&mut self, document: &mut Document) {
        let block = match self.changes.take() {
            Some(block) => block,
            None => return,
        };
        let mut hang = match document.hang.take() {
            Some(hang) => hang,
            None => return self.error(block.head, "[changes] need their [graph]"),
        };
        self.names = std::mem::take(&mut hang.names);
        let mut changes = Vec::new();
        let mut places = Vec::new();
        let mut seen = HashMap::new();
        for line in &block.lines {
            let at = block.place(line);
            let change = match self.change(document, &block, line) {
                Some(change) => change,
                None => continue,
            };
            if let Some(first) = seen.insert(change.edge, at) {
                let first = self.line_of(first, at.text);
                self.error(at, format!("the edge stands at {first} already"));
                continue;
            }
            changes.push(change);
            places.push(at);
        }
        let most = *Changes::COUNT.end();
        if changes.len() > most {
            self.error(places[most], format!("more than {most} changes"));
        }
        hang.names = std::mem::take(&mut self.names);
        let words = |e: &Edge| document.hang_edge(&hang, e);
        document.changes_fault = change::broken_rule(&hang.graph, &changes, &words).map(|broken| {
            let at = broken.change.map_or(block.head, |i| places[i]);
            refused(at, broken.refusal, &broken.reason)
        });
        document.changes = Some(Changes::new(changes));
        document.hang = Some(hang);
    }

    fn change(&mut self, document: &Document, block: &Block, line: &Line) -> Option<Change> {
        let source = self.source(block.text);
        let (sign, from, arrow, to) = match line.words[..] {
            [sign, from, arrow, to] if arrow.is_arrow() && from.is_name() && to.is_name() => (sign, from, arrow, to),
            [_, from, arrow, to] => {
                no_form(self, block.text, &[from, arrow, to], EXPECTED_CHANGE);
                return None;
            }
            _ => {
                self.error(block.place(line), EXPECTED_CHANGE);
                return None;
            }
        };
        let adds = match sign.raw(source) {
            change::ADD => true,
            change::TAKE => false,
            _ => {
                self.error(block.at(sign).place(), EXPECTED_CHANGE);
                return None;
            }
        };
        let source_end = self.find_item(block.text, from);
        let label = self.find_label(document, block.text, arrow, false);
        let target = self.find_item(block.text, to);
        Some(Change { adds, edge: Edge { source: source_end?, label: label?, target: target? } })
    }

    /// The number of the kind in an arrow of a pattern or a change, or nothing after a fault was told.
    pub fn find_label(&mut self, document: &Document, text: u32, arrow: Word, any: bool) -> Option<u32> {
        let spelled: Cow<str> = arrow.text(self.source(text));
        let at = place(text, arrow);
        let bare = arrow.form == Form::Arrow;
        let read = match (&spelled[..], any) {
            (ANY, true) if bare => Ok(crate::packed::edge::ANY_LABEL),
            (ANY, false) if bare => Err(format!("'{ANY}' is for query edges; a graph edge has a label")),
            ("0", true) if bare => Err(format!("for an edge of any label write '{ANY}', not 0")),
            _ if bare && (is_number(&spelled) || spelled.is_empty()) => number("edge label", &spelled, EDGE_LABELS),
            _ => {
                let kinds = &document.connection_kinds;
                let found = kinds.find(&spelled).map(|written: Written| kinds.number(written));
                if found.is_none() {
                    self.no_kind(document, &spelled, at, false);
                }
                return found;
            }
        };
        read.map_err(|reason| self.error(at, reason)).ok()
    }

    /// Says of a pattern or a change that its kind is none.
    pub fn no_kind(&mut self, document: &Document, name: &str, at: Place, is_item: bool) {
        let kinds = if is_item { &document.item_kinds } else { &document.connection_kinds };
        let what = if is_item { "item" } else { "connection" };
        let has_hang = self.is_beside || document.hang.is_some() || self.graph_head.is_some() || self.from_tables;
        let reason = match (kinds.is_declared(), has_hang) {
            (true, _) => format!("no kind of {what} '{name}' is declared in [kinds]"),
            (false, true) => format!("no {what} of kind '{name}' is in the hang"),
            (false, false) => format!("no kind of {what} '{name}' is known: there is no hang, and no [kinds]"),
        };
        self.unknown(at, reason, name, kinds.iter().map(|(name, _)| name).chain(Some(ANY)));
    }

    /// Adds a note to an item.
    pub fn note(&mut self, item: u32, column: &str, value: &str) {
        let columns = &mut self.notes.columns;
        let i = columns.iter().position(|c| c == column).unwrap_or_else(|| {
            columns.push(column.to_string());
            columns.len() - 1
        });
        self.notes.notes.push((item, i as u32, value.to_string()));
    }
}

/// The place of a connection.
fn whole(draft: &DraftEdge) -> Place {
    Place { text: draft.text, start: draft.start, end: draft.end }
}

/// What the engine refuses although it is well formed.
pub fn refused(at: Place, refusal: u8, reason: &str) -> Fault {
    let fault = Fault::warning(at, format!("{reason}; the engine will refuse this with {refusal}"));
    Fault { refusal: Some(refusal), ..fault }
}

const EXPECTED_CHANGE: &str =
    "expected '+ A -L-> B', an edge to add, or '- A -L-> B', one to take away, with blanks around \
                               the arrow";
