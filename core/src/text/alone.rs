//! A pattern that is read without its hang: the kinds that it may name stand in a text of their own before it.

use std::collections::BTreeSet;
use std::fmt::Write;

use crate::day::is_date;
use crate::text::words::{is_number, quote, split, Form};

/// `[kinds]` with the names of kinds of items and of connections.
pub fn declared<'n>(items: impl Iterator<Item = &'n str>, connections: impl Iterator<Item = &'n str>) -> String {
    let mut out = "[kinds]\n".to_string();
    for name in items {
        let _ = writeln!(out, "item {}", kind_name(name));
    }
    for name in connections {
        let _ = writeln!(out, "connection {}", kind_name(name));
    }
    out
}

/// `[kinds]` with every word of a text, so that any kind may stand in it; but where the text has kinds of
/// items or of connections in `[kinds]` of its own, those are all.
pub fn words_as_kinds(text: &str) -> String {
    let (mut items, mut connections) = (BTreeSet::new(), BTreeSet::new());
    let (mut has_items, mut has_connections) = (false, false);
    let mut is_kinds = false;
    let mut words = Vec::new();
    for line in text.lines() {
        if let Some(head) = line.trim_start().strip_prefix('[') {
            is_kinds = head.split(']').next().map(str::trim) == Some("kinds");
            continue;
        }
        if split(line, 0, line.len(), &mut words).is_err() {
            continue;
        }
        if is_kinds {
            let first = words.first().map(|word| word.raw(line));
            has_items |= first == Some("item");
            has_connections |= first == Some("connection");
            continue;
        }
        for word in &words {
            let name = word.text(line);
            let is_kind = !is_number(&name) && !name.is_empty() && !(word.form == Form::Bare && quote(&name) != name);
            if is_kind && word.is_arrow() {
                connections.insert(name.into_owned());
            } else if is_kind && word.is_name() {
                items.insert(name.into_owned());
            }
        }
    }
    let some = |names: BTreeSet<String>, has_own: bool| if has_own { BTreeSet::new() } else { names };
    let (items, connections) = (some(items, has_items), some(connections, has_connections));
    declared(items.iter().map(String::as_str), connections.iter().map(String::as_str))
}

/// The name of a kind, which is no number and no date where it is in quotes.
pub fn kind_name(name: &str) -> String {
    if is_number(name) || is_date(name) {
        return format!("\"{name}\"");
    }
    quote(name).into_owned()
}
