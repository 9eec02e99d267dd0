//! `read`: the hang, its kinds, patterns and changes.

use rizhavaan_core::json::items::Items;
use rizhavaan_core::json::kind::{Kind, Listed};
use rizhavaan_core::json::pattern::PatternJson;
use rizhavaan_core::json::{fault, summary};
use rizhavaan_core::{Document, Reading};
use serde_json::{json, Value};

use crate::call::{Answer, Call, Object};

pub fn read(call: &mut Call) -> Answer {
    let mut connections = None;
    let answer = call.with_document(|answer, reading, document| {
        connections = add(answer, reading, document);
        Ok(())
    });
    call.lists.extend(connections);
    answer
}

/// Adds what was read; answers the connections, which go beside the answer as its first list.
fn add(answer: &mut Object, reading: &Reading, document: &Document) -> Option<Vec<u32>> {
    let hang = document.hang.as_ref();
    let vertices = hang.map_or(&[][..], |hang| &hang.graph.vertices);
    let edges = hang.map_or(&[][..], |hang| &hang.graph.edges);
    let changes = document.changes.as_ref().map_or(&[][..], |changes| &changes.changes);
    let items = Listed::of(&document.item_kinds, vertices.iter().map(|v| v.label));
    let changed = changes.iter().map(|change| change.edge.label);
    let kinds = Listed::of(&document.connection_kinds, edges.iter().map(|e| e.label).chain(changed));
    answer.put("summary", &summary(document));
    answer.json("kinds", &{
        let mut both = Object::new();
        both.put("items", &items);
        both.put("connections", &kinds);
        both.end()
    });
    let declared = [document.item_kinds.is_declared(), document.connection_kinds.is_declared()];
    answer.put("declared", &json!({ "items": declared[0], "connections": declared[1] }));
    match hang {
        Some(hang) => answer.json("hang", &{
            let mut out = Object::new();
            out.put("items", &Items { document, hang });
            out.put("connections", &0);
            out.end()
        }),
        None => answer.put("hang", &Value::Null),
    }
    let patterns: Vec<PatternJson> = document
        .patterns
        .iter()
        .map(|pattern| PatternJson { document, pattern, texts: &reading.texts, before: 0 })
        .collect();
    answer.put("patterns", &patterns);
    let list: Option<Vec<Value>> = document.changes.as_ref().map(|changes| {
        let change = |c: &rizhavaan_core::packed::change::Change| {
            let kind = Kind { kinds: &document.connection_kinds, label: c.edge.label };
            json!({ "adds": c.adds, "from": c.edge.source, "to": c.edge.target, "kind": kind })
        };
        changes.changes.iter().map(change).collect()
    });
    answer.put("changes", &list);
    answer.put("changesFault", &document.changes_fault.as_ref().map(|f| fault(&reading.texts, f)));
    let index = kinds.indices();
    hang.map(|_| edges.iter().flat_map(|e| [e.source, e.target, index[e.label as usize]]).collect())
}
