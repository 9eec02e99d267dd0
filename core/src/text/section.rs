//! The sections of a text: `[kinds]`, `[graph]`, `[query]`, `[plan]` and `[changes]`.

use crate::text::draft::{Block, Draft, Line};
use crate::text::fault::{Fault, Place};
use crate::text::words::{self, Word};
use crate::text::{lines, table};

/// The section that a line stands in.
#[derive(Clone, Copy, Debug, PartialEq, Eq)]
pub enum Section {
    /// No section yet.
    None,
    /// One that was refused: its lines are passed over.
    Unknown,
    Kinds,
    Graph,
    Query,
    Plan,
    Changes,
}

pub const EXPECTED: &str = "expected [kinds], [graph], [query], [plan] or [changes]";

/// Reads all texts: sections first, then tables of items in their place, and tables of connections at the end,
/// where all items are known.
pub fn read(draft: &mut Draft) {
    for text in 0..draft.texts.len() {
        read_kinds(draft, text as u32);
    }
    let mut connections = Vec::new();
    let mut sections = 0;
    for text in 0..draft.texts.len() {
        if draft.texts[text].is_table() {
            sections += 1;
            connections.extend(table::read_items(draft, text as u32));
        } else {
            sections += read_text(draft, text as u32);
        }
    }
    for table in connections {
        table::read_connections(draft, table);
    }
    if sections == 0 && draft.faults.errors() == 0 {
        let place = Place { text: 0, start: 0, end: 0 };
        if draft.texts.is_empty() {
            return;
        }
        draft.error(place, format!("no section; {EXPECTED}"));
    }
}

/// Reads the `[kinds]` of a text, which hold for all texts, those before it too.
fn read_kinds(draft: &mut Draft, text: u32) {
    let source = draft.source(text);
    let is_head = |at: usize| source[at + 1..].trim_start().starts_with("kinds");
    if draft.texts[text as usize].is_table() || !memchr::memchr_iter(b'[', source.as_bytes()).any(is_head) {
        return;
    }
    let mut inside = false;
    let mut words: Vec<Word> = Vec::new();
    for (at, end) in line_ends(source, draft.texts[text as usize].begin()) {
        let line = source[at..end].trim_start();
        if let Some(head) = line.strip_prefix('[') {
            inside = head.split(']').next().map(str::trim) == Some("kinds");
        } else if inside && words::split(source, at, end, &mut words).is_ok() && !words.is_empty() {
            lines::kind(draft, text, &words);
        }
    }
}

/// Where each line begins and ends, without its line feed.
fn line_ends(source: &str, begin: usize) -> impl Iterator<Item = (usize, usize)> + '_ {
    let mut at = begin;
    std::iter::from_fn(move || {
        if at >= source.len() {
            return None;
        }
        let start = at;
        let stop = memchr::memchr(b'\n', &source.as_bytes()[at..]).map_or(source.len(), |i| at + i);
        at = stop + 1;
        let end = if source[start..stop].ends_with('\r') { stop - 1 } else { stop };
        Some((start, end))
    })
}

/// Reads a text; answers how many sections it has.
fn read_text(draft: &mut Draft, text: u32) -> usize {
    let source = draft.source(text);
    let mut section = Section::None;
    let mut count = 0;
    let mut words: Vec<Word> = Vec::new();
    for (at, end) in line_ends(source, draft.texts[text as usize].begin()) {
        let first = at + (end - at - source[at..end].trim_start().len());
        if source[first..end].starts_with('[') {
            count += 1;
            section = head(draft, text, first, end);
        } else {
            match words::split(source, at, end, &mut words) {
                Err((start, end, reason)) => draft.error(Place { text, start, end }, reason),
                Ok(_) if words.is_empty() => {}
                Ok(_) => line(draft, text, section, &words),
            }
        }
    }
    count
}

/// Reads the head of a section: a line from its bracket to its end.
fn head(draft: &mut Draft, text: u32, start: usize, end: usize) -> Section {
    let source = draft.source(text);
    let line = &source[start..end];
    let close = closing_bracket(line);
    let comment = close.and_then(|i| line[i + 1..].trim_start().strip_prefix('#'));
    let whole = match close {
        Some(i) => &line[..i + 1],
        None => line.split('#').next().unwrap_or_default().trim_end(),
    };
    let place = Place { text, start: start as u32, end: (start + whole.len()) as u32 };
    let is_last = close.map_or(false, |i| comment.is_some() || line[i + 1..].trim().is_empty());
    let mut words = Vec::new();
    let inside = close.map(|i| words::split(source, start + 1, start + i, &mut words));
    let name = match (&words[..], &inside) {
        ([_], Some(Ok(None))) if is_last => None,
        ([_, name], Some(Ok(None))) if is_last && name.is_name() => Some(name.text(source).into_owned()),
        _ => {
            draft.error(place, format!("'{whole}' is no section; {EXPECTED}"));
            return Section::Unknown;
        }
    };
    let section = match words[0].raw(source) {
        "kinds" => Section::Kinds,
        "graph" => Section::Graph,
        "query" => Section::Query,
        "plan" => Section::Plan,
        "changes" => Section::Changes,
        word => {
            let reason = format!("'{whole}' is no section; {EXPECTED}");
            let sections = ["kinds", "graph", "query", "plan", "changes"];
            draft.unknown(place, reason, word, sections.iter().copied());
            return Section::Unknown;
        }
    };
    let named = matches!(section, Section::Query | Section::Plan);
    if let (Some(name), false) = (&name, named) {
        draft.error(place, format!("only [query] and [plan] have a name, not '{name}'"));
    }
    let sentence = comment.map(|c| c.trim().to_string()).filter(|c| !c.is_empty());
    open(draft, section, Block { text, head: place, name, sentence, lines: Vec::new() })
}

/// Where the bracket closes that a line begins with.
fn closing_bracket(line: &str) -> Option<usize> {
    let mut quoted = false;
    for (i, byte) in line.bytes().enumerate() {
        match byte {
            b'"' => quoted = !quoted,
            b'#' if !quoted => return None,
            b']' if !quoted => return Some(i),
            _ => {}
        }
    }
    None
}

fn open(draft: &mut Draft, section: Section, block: Block) -> Section {
    match section {
        Section::Graph => match draft.graph_head {
            Some(first) => {
                let first = draft.line_of(first, block.text);
                draft.error(block.head, format!("a second [graph]; the first is at {first}"));
                return Section::Unknown;
            }
            None => draft.graph_head = Some(block.head),
        },
        Section::Query => {
            let same = draft.queries.iter().find(|other| other.name == block.name);
            if let Some(first) = same.map(|other| draft.line_of(other.head, block.text)) {
                let fault = match &block.name {
                    Some(name) => Fault::error(block.head, format!("a second [query {name}]; the first is at {first}")),
                    None => Fault::error(block.head, format!("a second [query]; the first is at {first}"))
                        .help("give each a name, as in [query two-motors]"),
                };
                draft.faults.push(fault);
            }
            draft.queries.push(block);
        }
        Section::Plan => draft.plans.push(block),
        Section::Changes => match &draft.changes {
            Some(first) => {
                let first = draft.line_of(first.head, block.text);
                draft.error(block.head, format!("a second [changes]; the first is at {first}"));
                return Section::Unknown;
            }
            None => draft.changes = Some(block),
        },
        _ => {}
    }
    section
}

fn line(draft: &mut Draft, text: u32, section: Section, words: &[Word]) {
    let block = match section {
        Section::None => {
            let place = Place { text, start: words[0].start, end: words[words.len() - 1].end };
            return draft.error(place, format!("no section yet; {EXPECTED}"));
        }
        Section::Unknown | Section::Kinds => return,
        Section::Graph => return lines::graph(draft, text, words),
        Section::Query => draft.queries.last_mut(),
        Section::Plan => draft.plans.last_mut(),
        Section::Changes => draft.changes.as_mut(),
    };
    if let Some(block) = block {
        block.lines.push(Line { words: words.to_vec() });
    }
}
