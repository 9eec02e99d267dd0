//! A document in the text form, with names where it has them.

use std::fmt::Write;

use crate::day::{Day, Days};
use crate::document::{Document, Hang, Pattern};
use crate::kinds::Kinds;
use crate::names::Names;
use crate::packed::change::{ADD, TAKE};
use crate::packed::edge::{Edge, ANY, ANY_LABEL};
use crate::packed::plan::Operator;
use crate::text::words::{is_number, quote};

/// The whole of a document.
pub fn document(document: &Document) -> String {
    let mut out = String::new();
    kinds(&mut out, document);
    if let Some(hang) = &document.hang {
        out.push_str("[graph]\n");
        items(&mut out, document, hang);
        for e in &hang.graph.edges {
            line(&mut out, &edge(document, &hang.names, e));
        }
    }
    for p in &document.patterns {
        pattern(&mut out, document, p);
    }
    if let (Some(hang), Some(changes)) = (&document.hang, &document.changes) {
        out.push_str("[changes]\n");
        for change in &changes.changes {
            let sign = if change.adds { ADD } else { TAKE };
            line(&mut out, &format!("{sign} {}", edge(document, &hang.names, &change.edge)));
        }
    }
    out
}

fn line(out: &mut String, text: &str) {
    out.push_str(text);
    out.push('\n');
}

/// `[kinds]`, where there are names, each with its number.
pub fn kinds(out: &mut String, document: &Document) {
    if document.item_kinds.is_empty() && document.connection_kinds.is_empty() {
        return;
    }
    out.push_str("[kinds]\n");
    let all = |out: &mut String, what: &str, kinds: &Kinds| {
        for (name, number) in kinds.iter() {
            line(out, &format!("{what} {} {number}", quote(name)));
        }
    };
    all(out, "item", &document.item_kinds);
    all(out, "connection", &document.connection_kinds);
}

/// A thing by its name or number. A name of digits is quoted, so that it is no number.
pub fn thing(names: &Names, number: u32) -> String {
    match names.get(number) {
        Some(name) if is_number(name) => format!("\"{name}\""),
        Some(name) => quote(name).into_owned(),
        None => number.to_string(),
    }
}

fn edge(document: &Document, names: &Names, e: &Edge) -> String {
    let kind = match document.connection_kinds.name(e.label) {
        _ if e.label == ANY_LABEL => ANY.to_string(),
        Some(name) => quote(name).into_owned(),
        None => e.label.to_string(),
    };
    format!("{} -{kind}-> {}", thing(names, e.source), thing(names, e.target))
}

/// Named things a line each, runs of equal ones without a name together.
fn things<T: PartialEq>(
    out: &mut String,
    kinds: &Kinds,
    names: &Names,
    all: &[T],
    label: impl Fn(&T) -> u32,
    rest: impl Fn(u32, &T) -> String,
) {
    let mut i = 0;
    while i < all.len() {
        let (number, thing) = (i as u32, &all[i]);
        let label = label(thing);
        let described = rest(number, thing);
        let kind = kinds.name(label).map(quote);
        if let Some(name) = names.get(number) {
            let name = quote(name);
            match (kind, label) {
                (Some(kind), _) => line(out, &format!("{name}: {kind}{described}")),
                (None, 0) => line(out, &format!("vertex {name}{described}")),
                (None, label) => line(out, &format!("vertex {name} label {label}{described}")),
            }
            i += 1;
            continue;
        }
        let same = |j: usize| names.get(j as u32).is_none() && all[j] == *thing && rest(j as u32, &all[j]) == described;
        let end = (i + 1..all.len()).find(|&j| !same(j)).unwrap_or(all.len());
        let kind = kind.map_or_else(|| format!("label {label}"), |kind| kind.into_owned());
        line(out, &format!("vertices {} {kind}{described}  # {i} to {}", end - i, end - 1));
        i = end;
    }
}

fn items(out: &mut String, document: &Document, hang: &Hang) {
    let mut of_item: Vec<String> = vec![String::new(); if hang.notes.notes.is_empty() { 0 } else { hang.names.len() }];
    for (item, column, value) in &hang.notes.notes {
        let column = &hang.notes.columns[*column as usize];
        let _ = write!(of_item[*item as usize], " note {} {}", quote(column), quote(&one_line(value)));
    }
    things(
        out,
        &document.item_kinds,
        &hang.names,
        &hang.graph.vertices,
        |item| item.label,
        |number, item| {
            let is_number = hang.numbered_days.binary_search(&number).is_ok();
            let day = match item.day {
                Day::NONE => String::new(),
                day if is_number => format!(" day {}", day.0),
                day => format!(" day {day}"),
            };
            day + of_item.get(number as usize).map_or("", String::as_str)
        },
    );
}

/// A note in one line.
fn one_line(value: &str) -> String {
    value.split(|c: char| c.is_control()).filter(|part| !part.is_empty()).collect::<Vec<_>>().join(" ")
}

/// A `[query]` and its `[plan]`.
pub fn pattern(out: &mut String, document: &Document, p: &Pattern) {
    let sentence = p.sentence.as_ref().map_or_else(String::new, |s| format!(" # {s}"));
    match &p.name {
        Some(name) => line(out, &format!("[query {}]{sentence}", head_name(name))),
        None => line(out, &format!("[query]{sentence}")),
    }
    if let Some(expect) = p.expect {
        line(out, &format!("expect {expect}"));
    }
    things(
        out,
        &document.item_kinds,
        &p.names,
        &p.query.vertices,
        |v| v.label,
        |number, v| match v.days {
            Days::ALL => String::new(),
            days if p.numbered_days.contains(&number) => format!(" inspected {}", numbers(days)),
            days => format!(" inspected {days}"),
        },
    );
    for e in &p.query.edges {
        line(out, &edge(document, &p.names, e));
    }
    for pair in &p.query.pairs {
        line(out, &format!("{} < {}", thing(&p.names, pair.low), thing(&p.names, pair.high)));
    }
    let plan = match &p.plan {
        Some(plan) => plan,
        None => return,
    };
    out.push_str("[plan]\n");
    for &operator in &plan.operators {
        match operator {
            Operator::Scan(i) => line(out, &format!("scan {}", edge(document, &p.names, &p.query.edges[i as usize]))),
            Operator::Extend(v) => line(out, &format!("extend {}", thing(&p.names, v))),
            Operator::Join => line(out, "join"),
        }
    }
}

/// A name in the head of a section.
pub fn head_name(name: &str) -> String {
    if name.contains(&['[', ']', '"'][..]) {
        return format!("\"{}\"", name.replace('"', "\"\""));
    }
    quote(name).into_owned()
}

/// A range of days in numbers, with open ends.
fn numbers(days: Days) -> String {
    let end = |day: Day, open: Day| if day == open { String::new() } else { day.0.to_string() };
    format!("{}..{}", end(days.first, Days::ALL.first), end(days.last, Days::ALL.last))
}
