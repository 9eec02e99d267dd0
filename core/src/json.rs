//! Answers and faults as JSON.

pub mod items;
pub mod kind;
pub mod pattern;
pub mod written;

use serde::ser::{Serialize, SerializeMap, SerializeSeq, Serializer};

use crate::document::{Document, Pattern};
use crate::engine::Engine;
use crate::failure::Failure;
use crate::find::{chosen, Found, Loaded, Options};
use crate::packed::pair::Pair;
use crate::source::{Source, Text};
use crate::summary::Summary;
use crate::text::fault::{Fault, Severity};
use crate::text::read;

/// The places of a pattern, with the names of its document.
pub struct FoundJson<'a> {
    pub loaded: &'a Loaded<'a>,
    pub found: &'a Found,
    /// The rows are listed, and not left out.
    pub list: bool,
}

impl Serialize for FoundJson<'_> {
    fn serialize<S: Serializer>(&self, serializer: S) -> Result<S::Ok, S::Error> {
        let FoundJson { loaded, found, list } = self;
        let document = loaded.document;
        let pattern = &found.pattern;
        let mut map = serializer.serialize_map(None)?;
        map.serialize_entry("pattern", &pattern.name)?;
        map.serialize_entry("sentence", &pattern.sentence)?;
        map.serialize_entry("vertices", &pattern.vertices())?;
        map.serialize_entry("places", &found.places())?;
        if *list {
            map.serialize_entry("rows", &RowsJson(self))?;
        }
        map.serialize_entry("cost", &found.cost)?;
        map.serialize_entry("build", &found.build)?;
        map.serialize_entry("probe", &found.probe)?;
        map.serialize_entry("records", &RecordsJson(self))?;
        let operators = found.plan.operators.iter().map(|&o| document.operator(pattern, o));
        map.serialize_entry("plan", &operators.collect::<Vec<_>>())?;
        map.serialize_entry("planFrom", found.origin.word())?;
        map.serialize_entry("planBytes", &hex(&found.plan_bytes))?;
        map.serialize_entry("images", &found.images)?;
        map.serialize_entry("pairsAdded", &pair_words(pattern, &found.added))?;
        map.end()
    }
}

/// Pairs in words.
pub fn pair_words(pattern: &Pattern, pairs: &[Pair]) -> Vec<String> {
    pairs.iter().map(|p| format!("{} < {}", pattern.vertex(p.low), pattern.vertex(p.high))).collect()
}

pub fn hex(bytes: &[u8]) -> String {
    let digits: Vec<String> = bytes.iter().map(|b| format!("{b:02x}")).collect();
    digits.join(" ")
}

struct RowsJson<'a>(&'a FoundJson<'a>);

impl Serialize for RowsJson<'_> {
    fn serialize<S: Serializer>(&self, serializer: S) -> Result<S::Ok, S::Error> {
        let FoundJson { loaded, found, .. } = self.0;
        let mut rows = serializer.serialize_seq(Some(found.places()))?;
        let mut names = Vec::with_capacity(found.width());
        for row in found.rows() {
            names.clear();
            names.extend(row.iter().map(|&item| loaded.hang.item(item)));
            rows.serialize_element(&names)?;
        }
        rows.end()
    }
}

struct RecordsJson<'a>(&'a FoundJson<'a>);

impl Serialize for RecordsJson<'_> {
    fn serialize<S: Serializer>(&self, serializer: S) -> Result<S::Ok, S::Error> {
        let FoundJson { loaded, found, .. } = self.0;
        let mut records = serializer.serialize_seq(Some(found.records.len()))?;
        for (record, &operator) in found.records.iter().zip(&found.plan.operators) {
            records.serialize_element(&serde_json::json!({
                "operator": loaded.document.operator(&found.pattern, operator),
                "rows": record.rows,
                "cost": record.cost,
            }))?;
        }
        records.end()
    }
}

/// A fault with its file, line and column, and the line itself.
pub fn fault(texts: &[Text], fault: &Fault) -> serde_json::Value {
    let at = fault.place.locate(texts);
    serde_json::json!({
        "severity": if fault.severity == Severity::Error { "error" } else { "warning" },
        "file": at.file,
        "line": at.line,
        "column": at.column,
        "length": at.length,
        "source": at.source,
        "reason": fault.reason,
        "help": fault.help,
    })
}

/// Counts of items and connections by kind.
pub fn summary(document: &Document) -> serde_json::Value {
    let summary = Summary::of(document);
    let list = |kinds: &[(String, usize)]| -> Vec<serde_json::Value> {
        kinds.iter().map(|(kind, count)| serde_json::json!({ "kind": kind, "count": count })).collect()
    };
    serde_json::json!({
        "items": summary.items,
        "connections": summary.connections,
        "itemKinds": list(&summary.item_kinds),
        "connectionKinds": list(&summary.connection_kinds),
        "patterns": document.patterns.iter().map(Pattern::title).collect::<Vec<_>>(),
    })
}

/// Reads files, finds the places of patterns (all, where none is named) and answers as one JSON object:
/// `errors` and `warnings`, and where there is no error `summary` and `patterns`, an object each.
/// A pattern that has no answer has `error`, a sentence.
pub fn find_json(engine: &dyn Engine, sources: &[Source], options: &Options, names: &[String]) -> String {
    let reading = read(sources);
    let of = |severity: Severity| -> Vec<serde_json::Value> {
        let some = reading.faults.faults.iter().filter(|f| f.severity == severity);
        some.map(|f| fault(&reading.texts, f)).collect()
    };
    let mut answer = serde_json::json!({
        "errors": of(Severity::Error),
        "errorCount": reading.faults.errors,
        "warnings": of(Severity::Warning),
    });
    if let Some(document) = &reading.document {
        answer["summary"] = summary(document);
        match found_all(engine, document, options, names, &reading.texts) {
            Ok(patterns) => answer["patterns"] = patterns.into(),
            Err(failure) => answer["error"] = failure_json(&reading.texts, &failure),
        }
    }
    answer.to_string()
}

fn found_all(
    engine: &dyn Engine,
    document: &Document,
    options: &Options,
    names: &[String],
    texts: &[Text],
) -> Result<Vec<serde_json::Value>, Failure> {
    let patterns = chosen(document, names)?;
    let loaded = Loaded::load(engine, document)?;
    let value = |pattern: &Pattern| match loaded.find(engine, pattern, options) {
        Ok(found) => {
            let view = FoundJson { loaded: &loaded, found: &found, list: true };
            let mut value = serde_json::to_value(&view).unwrap_or_default();
            if found.places() == 0 {
                value["why"] = crate::why::why(&loaded, &found).into();
            }
            value
        }
        Err(failure) => serde_json::json!({ "pattern": pattern.name, "error": failure_json(texts, &failure) }),
    };
    Ok(patterns.into_iter().map(value).collect())
}

/// A sentence, and its place where it has one.
pub fn failure_json(texts: &[Text], failure: &Failure) -> serde_json::Value {
    match failure {
        Failure::At(at) => fault(texts, at),
        other => serde_json::json!({ "reason": other.to_string() }),
    }
}
