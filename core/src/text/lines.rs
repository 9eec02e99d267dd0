//! The lines of `[kinds]` and `[graph]`.

use crate::day::{is_date, Day};
use crate::kinds::Written;
use crate::packed::edge::{ANY, EDGE_LABELS, VERTEX_LABELS};
use crate::packed::graph::Graph;
use crate::text::draft::{Draft, DraftEdge, DraftItem, End};
use crate::text::fault::{Fault, Place};
use crate::text::words::{is_number, is_reserved, name_fault, number, Form, Word};

/// The place from one word to another.
pub fn span(text: u32, words: &[Word]) -> Place {
    let start = words.first().map_or(0, |w| w.start);
    Place { text, start, end: words.last().map_or(start, |w| w.end) }
}

pub fn place(text: u32, word: Word) -> Place {
    Place { text, start: word.start, end: word.end }
}

/// A line of `[kinds]`: 'item NAME' or 'connection NAME', and a number after it.
pub fn kind(draft: &mut Draft, text: u32, words: &[Word]) {
    let source = draft.source(text);
    let (what, name, number) = match *words {
        [what, name] if name.is_name() => (what, name, None),
        [what, name, n] if name.is_name() => (what, name, Some(n)),
        [what, name, equals, n] if name.is_name() && equals.is(source, "=") => (what, name, Some(n)),
        _ => return draft.error(span(text, words), EXPECTED_KIND),
    };
    let is_item = match what.raw(source) {
        "item" => true,
        "connection" => false,
        word => {
            let (reason, words) = (EXPECTED_KIND.to_string(), ["item", "connection"]);
            return draft.unknown(place(text, what), reason, word, words.iter().copied());
        }
    };
    let spelled = name.text(source);
    if let Some(reason) = kind_fault(&spelled) {
        return draft.error(place(text, name), reason);
    }
    let range = if is_item { 1..=*VERTEX_LABELS.end() } else { EDGE_LABELS };
    let number = match number.map(|n| self::number("kind number", n.raw(source), range)) {
        None => None,
        Some(Ok(number)) => Some(number),
        Some(Err(reason)) => return draft.error(span(text, words), reason),
    };
    let kinds = if is_item { &mut draft.item_kinds } else { &mut draft.connection_kinds };
    let holder = number.and_then(|n| kinds.holder(n)).map(|(holder, at)| (holder.to_string(), at));
    if let Some((holder, at)) = holder {
        let line = draft.line_of(at, text);
        return draft.error(span(text, words), format!("'{holder}' has this number already, at {line}"));
    }
    if let Err(first) = kinds.declare(&spelled, number, place(text, name)) {
        let line = draft.line_of(first, text);
        draft.error(place(text, name), format!("the kind '{spelled}' stands at {line} already"));
    }
}

const EXPECTED_KIND: &str = "expected 'item NAME' or 'connection NAME', with the kind's number after it or without";

/// Why a text is no name of a kind, if it is none.
pub fn kind_fault(name: &str) -> Option<String> {
    if is_number(name) {
        return Some(format!("'{name}' is a number and no name of a kind"));
    }
    if is_date(name) {
        return Some(format!("'{name}' is a date and no name of a kind"));
    }
    name_fault(name).map(str::to_string)
}

/// A line of `[graph]`.
pub fn graph(draft: &mut Draft, text: u32, words: &[Word]) {
    let source = draft.source(text);
    match *words {
        [vertex, name, ref rest @ ..] if vertex.is(source, "vertex") && name.is_name() => item(draft, text, name, rest),
        [name, colon, ref rest @ ..] if name.is_name() && colon.form == Form::Colon => item(draft, text, name, rest),
        [vertices, count, ref rest @ ..] if vertices.is(source, "vertices") && count.is_name() => {
            match number("count", &count.text(source), 0..=u32::MAX) {
                Ok(count) => items(draft, text, Err(span(text, words)), count, rest),
                Err(reason) => draft.error(place(text, count), reason),
            }
        }
        [from, arrow, to] if arrow.is_arrow() && from.is_name() && to.is_name() => edge(draft, text, from, arrow, to),
        [from, below, to] if below.is(source, "<") && from.is_name() && to.is_name() => {
            draft.error(span(text, words), "a pair 'A < B' is for query vertices");
        }
        _ => no_form(draft, text, words, EXPECTED_ITEM),
    }
}

/// Says of a line of no known form what was expected.
pub fn no_form(draft: &mut Draft, text: u32, words: &[Word], expected: &str) {
    let source = draft.source(text);
    let bare = |w: &Word| w.form == Form::Bare;
    let opens = |w: &Word| bare(w) && w.raw(source).starts_with('-') && w.raw(source).len() > 1;
    let closes = |w: &Word| bare(w) && w.raw(source).ends_with("->");
    if let Some(i) = words.iter().position(opens) {
        if let Some(j) = words[i + 1..].iter().position(closes) {
            let all = &source[words[i].start as usize + 1..words[i + 1 + j].end as usize - 2];
            let at = Place { text, start: words[i].start, end: words[i + 1 + j].end };
            let fault = Fault::error(at, "a kind with blanks stands in quotes");
            return draft.faults.push(fault.help(format!("write -\"{all}\"->")));
        }
    }
    if let [_, arrow, _] = *words {
        let raw = arrow.raw(source);
        if bare(&arrow) && (raw.starts_with('-') || raw.ends_with('>')) {
            return draft.error(place(text, arrow), format!("'{raw}' is no arrow -LABEL->"));
        }
    }
    draft.error(span(text, words), expected);
}

const EXPECTED_ITEM: &str = "expected an item 'NAME: KIND' or 'vertex NAME', several 'vertices COUNT', each with 'label L' \
                             and 'day D' after it or without; or a connection 'A -KIND-> B' with blanks around the arrow";

fn item(draft: &mut Draft, text: u32, name: Word, rest: &[Word]) {
    let source = draft.source(text);
    let spelled = name.text(source);
    let at = place(text, name);
    if let Some(reason) = bare_name_fault(name, &spelled) {
        draft.error(at, reason);
    } else {
        if is_number(&spelled) {
            draft.digit_names.push((draft.items.len() as u32, at));
        }
        items(draft, text, Ok((&spelled, at)), 1, rest);
    }
}

/// Why a word is no name where a name stands, if it is none.
pub fn bare_name_fault(word: Word, spelled: &str) -> Option<String> {
    if word.form == Form::Bare && (is_reserved(spelled) || spelled.starts_with('-') || spelled.contains("->")) {
        return Some(format!("'{spelled}' is a word of the text form and no name: write it in quotes, \"{spelled}\""));
    }
    name_fault(spelled).map(str::to_string)
}

/// Adds items that the words after their name or count describe: one of a name, or several of a line.
fn items(draft: &mut Draft, text: u32, name: Result<(&str, Place), Place>, count: u32, rest: &[Word]) {
    let first = draft.items.len();
    let most = *Graph::LIMITS.vertices.end();
    let described = describe(draft, text, rest);
    if count as usize > most - first {
        let at = name.map_or_else(|at| at, |(_, at)| at);
        return draft.error(at, format!("more than {most} vertices"));
    }
    match name {
        Ok((name, at)) => {
            if let Err(first) = draft.names.add(name) {
                return draft.error(at, format!("'{name}' is the name of vertex {first} already"));
            }
        }
        Err(_) => draft.names.add_unnamed(count as usize),
    }
    let item = described.unwrap_or(DraftItem { kind: None, day: Day::NONE });
    draft.items.resize(first + count as usize, item);
    if let Some(day) = day_word(draft.source(text), rest) {
        if is_number(day.raw(draft.source(text))) {
            draft.numbered_days.extend(first as u32..first as u32 + count);
        }
    }
}

fn day_word(source: &str, rest: &[Word]) -> Option<Word> {
    let i = rest.iter().position(|w| w.is(source, "day"))?;
    rest.get(i + 1).copied()
}

/// The item that the words after its name describe, or nothing after a fault was told.
fn describe(draft: &mut Draft, text: u32, rest: &[Word]) -> Option<DraftItem> {
    let source = draft.source(text);
    let (kind, mut rest) = split_kind(draft, text, rest)?;
    let kind = match kind {
        Some(word) => Some(item_kind(draft, text, word)?),
        None => None,
    };
    let mut day = Day::NONE;
    if let [word, d, ref more @ ..] = *rest {
        if word.is(source, "day") && d.is_name() {
            match Day::read(&d.text(source)) {
                Ok(read) => day = read,
                Err(reason) => draft.error(place(text, d), reason),
            }
            rest = more;
        } else if word.is(source, "inspected") {
            draft.error(span(text, rest), "'inspected' is for query vertices; a graph vertex has 'day D'");
            return None;
        }
    }
    while let [word, column, value, ref more @ ..] = *rest {
        if !word.is(source, "note") || !column.is_name() || !value.is_name() {
            break;
        }
        let (column, value) = (column.text(source), value.text(source));
        draft.note(draft.items.len() as u32, &column, &value);
        rest = more;
    }
    if !rest.is_empty() {
        draft.error(span(text, rest), EXPECTED_ITEM);
        return None;
    }
    Some(DraftItem { kind, day })
}

/// The word that names a kind, at the beginning, and the words after it.
pub fn split_kind<'w>(draft: &mut Draft, text: u32, rest: &'w [Word]) -> Option<(Option<Word>, &'w [Word])> {
    let source = draft.source(text);
    match *rest {
        [] => Some((None, rest)),
        [label, kind, ref more @ ..] if label.is(source, "label") && kind.is_name() => Some((Some(kind), more)),
        [word, ..] if word.form == Form::Bare && ["day", "inspected", "note"].contains(&word.raw(source)) => {
            Some((None, rest))
        }
        [word, ..] if word.form == Form::Bare && is_number(word.raw(source)) => {
            let fault = Fault::error(place(text, word), "a number by itself is no kind");
            draft.faults.push(fault.help(format!("for the kind of this number write 'label {}'", word.raw(source))));
            None
        }
        [word, ..] if word.form == Form::Bare && is_date(word.raw(source)) => {
            let fault = Fault::error(place(text, word), "a date by itself is no kind");
            draft.faults.push(fault.help(format!("for a day write 'day {}'", word.raw(source))));
            None
        }
        [word, ref more @ ..] if word.is_name() && !word.is(source, "label") => Some((Some(word), more)),
        _ => {
            draft.error(span(text, rest), EXPECTED_ITEM);
            None
        }
    }
}

/// The kind that a word of `[graph]` names or is the number of.
fn item_kind(draft: &mut Draft, text: u32, word: Word) -> Option<Written> {
    let source = draft.source(text);
    let spelled = word.text(source);
    if word.form == Form::Bare && (is_number(&spelled) || spelled.starts_with('+')) {
        return match number("vertex label", &spelled, VERTEX_LABELS) {
            Ok(label) => {
                draft.item_kinds.met_number(label);
                Some(Written::Number(label))
            }
            Err(reason) => {
                draft.error(place(text, word), reason);
                None
            }
        };
    }
    if word.form == Form::Bare && spelled == ANY {
        draft.error(place(text, word), "'any' is for query vertices; an item has a kind or none");
        return None;
    }
    draft.met_item_kind(&spelled, place(text, word))
}

fn edge(draft: &mut Draft, text: u32, from: Word, arrow: Word, to: Word) {
    let source = draft.source(text);
    let spelled = arrow.text(source);
    let at = place(text, arrow);
    let kind = match () {
        _ if arrow.form == Form::Arrow && spelled == ANY => {
            draft.error(at, "'any' is for query edges; a graph edge has a label");
            None
        }
        _ if arrow.form == Form::Arrow && (is_number(&spelled) || spelled.is_empty()) => {
            match number("edge label", &spelled, EDGE_LABELS) {
                Ok(label) => {
                    draft.connection_kinds.met_number(label);
                    Some(Written::Number(label))
                }
                Err(reason) => {
                    draft.error(at, reason);
                    None
                }
            }
        }
        _ => draft.met_connection_kind(&spelled, at),
    };
    // A fault was told; the ends are looked at all the same.
    let kind = kind.unwrap_or(Written::Number(1));
    draft.edges.push(DraftEdge {
        text,
        source: End::Word(from),
        kind,
        target: End::Word(to),
        start: from.start,
        end: to.end,
    });
}
