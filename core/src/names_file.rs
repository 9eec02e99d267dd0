//! The table of names beside packed files, which hold numbers alone.
//!
//! It has the head `[kinds]` of the text form, `[items]` with a line 'NUMBER NAME' for each item that has a name, and
//! `[query NAME]` with the same for the vertices of the pattern. Behind a name stands 'number' where the day was written as
//! a number, and the item's notes.

use std::fmt::Write;

use crate::document::{Document, Pattern};
use crate::names::Names;
use crate::text::draft_expect;
use crate::text::fault::Place;
use crate::text::words::{name_fault, quote, split, Word};
use crate::write;

/// The table of names for a document and one of its patterns, or nothing if there is no name.
pub fn text(document: &Document, pattern: Option<&Pattern>) -> Option<String> {
    let mut out = String::new();
    write::kinds(&mut out, document);
    if let Some(hang) = &document.hang {
        let mut notes = vec![String::new(); hang.names.len()];
        for (item, column, value) in &hang.notes.notes {
            let column = &hang.notes.columns[*column as usize];
            let _ = write!(notes[*item as usize], " note {} {}", quote(column), quote(value));
        }
        let rest = |i: u32| notes[i as usize].clone();
        things(&mut out, "[items]", &hang.names, &hang.numbered_days, rest);
    }
    if let Some(p) = pattern {
        let sentence = p.sentence.as_ref().map_or_else(String::new, |s| format!(" # {s}"));
        let head = match &p.name {
            Some(name) => format!("[query {}]{sentence}", write::head_name(name)),
            None => format!("[query]{sentence}"),
        };
        let is_plain = p.name.is_none() && p.sentence.is_none() && p.expect.is_none();
        if !is_plain || p.names.named() > 0 || !p.numbered_days.is_empty() {
            things(&mut out, &head, &p.names, &p.numbered_days, |_| String::new());
            if p.names.named() == 0 && p.numbered_days.is_empty() {
                let _ = writeln!(out, "{head}");
            }
            if let Some(expect) = p.expect {
                let _ = writeln!(out, "expect {expect}");
            }
        }
    }
    let remark = "# The names of the packed files beside this one.\n";
    (!out.is_empty()).then(|| format!("{remark}{out}"))
}

fn things(out: &mut String, head: &str, names: &Names, numbered: &[u32], rest: impl Fn(u32) -> String) {
    let mut is_first = true;
    for i in 0..names.len() as u32 {
        let is_numbered = numbered.binary_search(&i).is_ok();
        let rest = rest(i);
        if names.get(i).is_none() && !is_numbered && rest.is_empty() {
            continue;
        }
        if std::mem::take(&mut is_first) {
            let _ = writeln!(out, "{head}");
        }
        let name = names.get(i).map_or_else(|| "-".to_string(), |name| quote(name).into_owned());
        let number = if is_numbered { " number" } else { "" };
        let _ = writeln!(out, "{i} {name}{number}{rest}");
    }
}

/// A section of the table.
#[derive(Clone, Copy, PartialEq)]
enum Section {
    None,
    Kinds,
    Items,
    Query,
}

/// Gives the things of a document the names of a table.
pub fn apply(document: &mut Document, text: &str) -> Result<(), String> {
    let mut section = Section::None;
    let mut words = Vec::new();
    let mut items = Naming::new(document.hang.as_ref().map_or(0, |hang| hang.names.len()));
    let mut vertices = Naming::new(document.patterns.first().map_or(0, |p| p.names.len()));
    for (number, line) in (1..).zip(text.lines()) {
        let fault = |reason: &str| format!("line {number}: {reason}");
        if line.trim_start().starts_with('[') {
            section = head(document, line.trim()).ok_or_else(|| fault("expected [kinds], [items] or [query]"))?;
            continue;
        }
        split(line, 0, line.len(), &mut words).map_err(|(_, _, reason)| fault(reason))?;
        if words.is_empty() {
            continue;
        }
        let read = match section {
            Section::None => Err("no section yet".into()),
            Section::Kinds => kind(document, line, &words),
            Section::Items => items.line(line, &words),
            Section::Query if words[0].is(line, "expect") => {
                let rest: Vec<&str> = words[1..].iter().map(|w| w.raw(line)).collect();
                match (draft_expect(&rest), document.patterns.first_mut()) {
                    (Some(expect), Some(p)) => {
                        p.expect = Some(expect);
                        Ok(())
                    }
                    _ => Err("expected 'expect 0' or 'expect at least 1' of a pattern".to_string()),
                }
            }
            Section::Query => vertices.line(line, &words),
        };
        read.map_err(|reason| fault(&reason))?;
    }
    if let Some(hang) = &mut document.hang {
        hang.names = items.names()?;
        hang.numbered_days = items.numbered;
        hang.numbered_days.sort_unstable();
        for (item, column, value) in items.notes {
            let columns = &mut hang.notes.columns;
            let i = columns.iter().position(|c| *c == column).unwrap_or_else(|| {
                columns.push(column);
                columns.len() - 1
            });
            hang.notes.notes.push((item, i as u32, value));
        }
        hang.notes.notes.sort();
    }
    if let Some(p) = document.patterns.first_mut() {
        p.names = vertices.names()?;
        p.numbered_days = vertices.numbered;
        p.numbered_days.sort_unstable();
    }
    Ok(())
}

fn head(document: &mut Document, line: &str) -> Option<Section> {
    let close = line.find(']').filter(|&i| line[..i].matches('"').count() % 2 == 0).or_else(|| line.rfind(']'))?;
    let mut words = Vec::new();
    split(line, 1, close, &mut words).ok()?;
    match (words.first()?.raw(line), &words[1..]) {
        ("kinds", []) => Some(Section::Kinds),
        ("items", []) => Some(Section::Items),
        ("query", rest) if rest.len() < 2 => {
            let p = document.patterns.first_mut()?;
            p.name = rest.first().map(|name| name.text(line).into_owned());
            let comment = line[close + 1..].trim().strip_prefix('#').map(|s| s.trim().to_string());
            p.sentence = comment.filter(|s| !s.is_empty());
            Some(Section::Query)
        }
        _ => None,
    }
}

fn kind(document: &mut Document, line: &str, words: &[Word]) -> Result<(), String> {
    let (what, name, number) = match *words {
        [what, name, number] => (what.raw(line), name.text(line), number.raw(line).parse().ok()),
        _ => return Err("expected 'item NAME NUMBER' or 'connection NAME NUMBER'".into()),
    };
    let (kinds, most) = match what {
        "item" => (&mut document.item_kinds, 65_535),
        "connection" => (&mut document.connection_kinds, 255),
        _ => return Err("expected 'item NAME NUMBER' or 'connection NAME NUMBER'".into()),
    };
    let number = number.filter(|n| (1..=most).contains(n)).ok_or("the number of a kind is wrong")?;
    if kinds.holder(number).is_some() || name_fault(&name).is_some() {
        return Err(format!("the kind '{name}' has no name or a number that another has"));
    }
    let nowhere = Place { text: 0, start: 0, end: 0 };
    kinds.declare(&name, Some(number), nowhere).map_err(|_| format!("the kind '{name}' stands twice"))
}

/// Names by number as they are read.
struct Naming {
    named: Vec<Option<String>>,
    numbered: Vec<u32>,
    notes: Vec<(u32, String, String)>,
}

impl Naming {
    fn new(count: usize) -> Naming {
        Naming { named: vec![None; count], numbered: Vec::new(), notes: Vec::new() }
    }

    fn line(&mut self, line: &str, words: &[Word]) -> Result<(), String> {
        let (number, name, mut rest) = match *words {
            [number, name, ref rest @ ..] if name.is_name() => (number, name, rest),
            _ => return Err("expected 'NUMBER NAME'".into()),
        };
        let i: usize = number.raw(line).parse().map_err(|_| "expected 'NUMBER NAME'".to_string())?;
        let slot = self.named.get_mut(i).ok_or_else(|| format!("there is no number {i} in the packed files"))?;
        if !name.is(line, "-") {
            let name = name.text(line).into_owned();
            match name_fault(&name) {
                Some(reason) => return Err(reason.into()),
                None => *slot = Some(name),
            }
        }
        if let [word, ref more @ ..] = *rest {
            if word.is(line, "number") {
                self.numbered.push(i as u32);
                rest = more;
            }
        }
        while let [note, column, value, ref more @ ..] = *rest {
            if !note.is(line, "note") {
                break;
            }
            self.notes.push((i as u32, column.text(line).into_owned(), value.text(line).into_owned()));
            rest = more;
        }
        if rest.is_empty() {
            Ok(())
        } else {
            Err("expected 'NUMBER NAME'".into())
        }
    }

    fn names(&self) -> Result<Names, String> {
        let mut names = Names::default();
        for name in &self.named {
            match name {
                None => names.add_unnamed(1),
                Some(name) => drop(names.add(name).map_err(|_| format!("the name '{name}' stands twice"))?),
            }
        }
        Ok(names)
    }
}
