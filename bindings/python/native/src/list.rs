//! Lists: pages, pictures and single places.

use std::borrow::Cow;

use rizhavaan_core::json::kind::Kind;
use rizhavaan_core::packed::edge::{Edge, ANY_LABEL};
use rizhavaan_core::picture::Drawing;
use rizhavaan_core::{export, Found};
use serde_json::{json, Value};

use crate::call::{Call, Made, No};
use crate::engine::Library;
use crate::thing::List;

/// The rows that a question speaks of: all, or so many from one on, by steps.
fn part<'l>(call: &Call, list: &'l List) -> Result<Cow<'l, Found>, No> {
    if call.asked["start"].is_null() {
        return Ok(Cow::Borrowed(&list.found));
    }
    let [start, count] = [call.number("start")?, call.number("count")?];
    let step = call.asked["step"].as_i64().ok_or_else(|| No::internal("the question has no step"))?;
    let mut rows = Vec::with_capacity(count * list.found.width());
    for i in 0..count as i64 {
        rows.extend_from_slice(row(list, start as i64 + i * step)?);
    }
    Ok(Cow::Owned(list.found.part(rows)))
}

fn row(list: &List, i: i64) -> Result<&[u32], No> {
    let row = usize::try_from(i).ok().and_then(|i| list.found.rows().nth(i));
    row.ok_or_else(|| No::internal(format!("there is no row {i}")))
}

/// A page by numbers, and how many there are.
pub fn page(call: &Call, list: &List) -> Result<Made, No> {
    let (bytes, pages) = part(call, list)?.page(&Library, call.number("page")? as u64)?;
    Ok(json!({ "page": String::from_utf8_lossy(&bytes), "pages": pages }).into())
}

/// The names of the numbers on the pages.
pub fn key(call: &Call, list: &List) -> Result<Made, No> {
    Ok(json!({ "key": export::key(&list.hang()?.loaded()?, &*part(call, list)?) }).into())
}

pub fn csv(call: &Call, list: &List) -> Result<Made, No> {
    let mut bytes = Vec::new();
    let written = export::csv(&mut bytes, &list.hang()?.loaded()?, &*part(call, list)?);
    written.map_err(|e| No::internal(e.to_string()))?;
    Ok(json!({ "csv": String::from_utf8_lossy(&bytes) }).into())
}

pub fn picture(call: &Call, list: &List) -> Result<Made, No> {
    let loaded = list.hang()?.loaded()?;
    let drawing = Drawing::of(loaded.document, loaded.hang, Some(&*part(call, list)?), call.flag("all"));
    Ok(json!({ "svg": drawing.svg(), "dot": drawing.dot() }).into())
}

/// The connections of one place: for each of the pattern's, those of the hang that are its.
pub fn place(call: &Call, list: &List) -> Result<Made, No> {
    let row = row(list, call.number("row")? as i64)?;
    let loaded = list.hang()?.loaded()?;
    let mut connections: Vec<Value> = Vec::new();
    for asked in &list.found.query.edges {
        let (source, target) = (row[asked.source as usize], row[asked.target as usize]);
        let first = loaded.edges().partition_point(|e| e.source < source);
        let fits = |e: &&Edge| e.target == target && (asked.label == ANY_LABEL || e.label == asked.label);
        let of_source = loaded.edges()[first..].iter().take_while(|e| e.source == source);
        for e in of_source.filter(fits) {
            let kind = Kind { kinds: &loaded.document.connection_kinds, label: e.label };
            connections.push(json!({ "from": asked.source, "to": asked.target, "kind": kind }));
        }
    }
    Ok(json!({ "connections": connections }).into())
}
