//! Hangs: from texts, tables and arrays, and what they have.

use rizhavaan_core::arrays::{self, Arrays, Kind};
use rizhavaan_core::json::items::Items;
use rizhavaan_core::json::kind::Listed;
use rizhavaan_core::json::summary;
use rizhavaan_core::picture::Drawing;
use rizhavaan_core::text::words::{is_number, quote};
use rizhavaan_core::{read as read_sources, read_changes, text::alone::kind_name, write, Document, Loaded, Source};
use serde_json::{json, Value};

use crate::call::{Call, Made, No, Said};
use crate::engine::Library;
use crate::pattern::described;
use crate::thing::{Hang, Thing};

/// A hang of sources: what is lent are their bytes.
pub fn read(call: &Call) -> Result<Made, No> {
    let names = call.texts("names");
    if names.len() != call.lent.len() {
        return Err(No::internal("a source has a name"));
    }
    let sources: Vec<Source> =
        names.into_iter().zip(call.lent).map(|(name, bytes)| Source::new(name, *bytes)).collect();
    let mut reading = read_sources(&sources);
    reading.errors()?;
    let document = reading.document.take().ok_or_else(|| No::internal("there is no document"))?;
    let kept = reading.or_no(Loaded::load(&Library, &document))?.kept();
    let patterns: Vec<Value> = document.patterns.iter().map(|p| described(&reading, &document, p, 0)).collect();
    let json = json!({ "summary": summary(&document), "patterns": patterns, "warnings": reading.warnings() });
    Ok(Made::thing(json, Thing::Hang(Hang { document, kept })))
}

/// A hang of arrays: lent are the kinds of the items, and the connections.
pub fn arrays(call: &Call) -> Result<Made, No> {
    let connections = call.words(1)?;
    if connections.len() % 3 != 0 {
        return Err(No::internal("a connection has three words"));
    }
    let of = Arrays {
        names: call.texts("names"),
        item_kinds: kinds(&call.asked["itemKinds"])?,
        connection_kinds: kinds(&call.asked["connectionKinds"])?,
        days: call.texts("days"),
        kinds: call.words(0)?,
        connections: connections.chunks_exact(3).map(|c| [c[0], c[1], c[2]]).collect(),
    };
    made(arrays::document(&of)?)
}

fn kinds(list: &Value) -> Result<Vec<Kind>, No> {
    let kind = |kind: &Value| match (kind.as_str(), kind.as_u64()) {
        (Some(name), _) => Ok(Kind::Name(name.to_string())),
        (None, Some(number)) => Ok(Kind::Number(number.try_into().unwrap_or(u32::MAX))),
        (None, None) => Err(No::input(format!("the kind {kind} is no name and no number"))),
    };
    list.as_array().into_iter().flatten().map(kind).collect()
}

/// A hang that is loaded from a document.
fn made(document: Document) -> Result<Made, No> {
    let kept = Loaded::load(&Library, &document)?.kept();
    Ok(Made::thing(json!({ "summary": summary(&document) }), Thing::Hang(Hang { document, kept })))
}

/// The names of all items, or their numbers.
pub fn names(hang: &Hang) -> Result<Made, No> {
    let hang = hang.loaded()?.hang;
    let names: Vec<_> = (0..hang.names.len() as u32).map(|item| hang.item(item)).collect();
    Ok(json!({ "names": names }).into())
}

/// Name, kind, day and notes of all items.
pub fn items(hang: &Hang) -> Result<Made, No> {
    let items = Items { document: &hang.document, hang: hang.loaded()?.hang };
    Ok(json!({ "items": items }).into())
}

/// The kinds of connections; beside them source, index of its kind and target of each, as words.
pub fn connections(hang: &Hang) -> Result<Made, No> {
    let loaded = hang.loaded()?;
    let kinds = Listed::of(&hang.document.connection_kinds, loaded.edges().iter().map(|e| e.label));
    let index = kinds.indices();
    let words = loaded.edges().iter().flat_map(|e| [e.source, index[e.label as usize], e.target]).collect();
    Ok(Made::thing(json!({ "kinds": kinds }), Thing::Words(words)))
}

/// All of it in the text form.
pub fn text(hang: &Hang) -> Result<Made, No> {
    Ok(json!({ "text": write::document(&hang.document) }).into())
}

pub fn picture(call: &Call, hang: &Hang) -> Result<Made, No> {
    let drawing = Drawing::of(&hang.document, hang.loaded()?.hang, None, call.flag("all"));
    Ok(json!({ "svg": drawing.svg(), "dot": drawing.dot() }).into())
}

/// The hang after changes: those of the question, lines of the text form or lists of sign, item, kind, item;
/// else those of its own text.
pub fn changed(call: &Call, hang: &Hang) -> Result<Made, No> {
    let Some(changes) = call.asked["changes"].as_array() else {
        return after(&hang.document, hang);
    };
    let mut text = "[changes]\n".to_string();
    for change in changes {
        text.push_str(&line(change)?);
        text.push('\n');
    }
    let sources = [Source::new("changes", text)];
    let mut document = hang.document.clone();
    document.changes = None;
    document.changes_fault = None;
    let reading = read_changes(&mut document, &sources);
    reading.errors()?;
    reading
        .or_no(Loaded::again(&document, &hang.kept).and_then(|loaded| loaded.changed_document(&Library)))
        .map(changed_hang)
}

fn after(document: &Document, hang: &Hang) -> Result<Made, No> {
    Ok(changed_hang(Loaded::again(document, &hang.kept)?.changed_document(&Library)?))
}

fn changed_hang((document, kept): (Document, std::sync::Arc<rizhavaan_core::Kept>)) -> Made {
    Made::thing(json!({ "summary": summary(&document) }), Thing::Hang(Hang { document, kept }))
}

/// A change as a line of the text form.
fn line(change: &Value) -> Result<String, No> {
    if let Some(line) = change.as_str() {
        if line.contains(char::is_control) || line.trim_start().starts_with('[') {
            return Err(No::input(format!("the change {change} is no line of changes")));
        }
        return Ok(line.to_string());
    }
    let item = |name: &str| if is_number(name) { format!("\"{name}\"") } else { quote(name).into_owned() };
    let kind = |kind: &Value| kind.as_str().map_or_else(|| kind.to_string(), kind_name);
    let words = change.as_array().map_or(&[][..], |words| words);
    match words {
        [Value::String(sign), Value::String(from), label, Value::String(to)]
            if ![sign, from, to].iter().any(|word| word.contains(char::is_control)) =>
        {
            Ok(format!("{sign} {} -{}-> {}", item(from), kind(label), item(to)))
        }
        _ => Err(No::input(format!("the change {change} has not a sign, an item, a kind and an item"))),
    }
}
