//! A hang and a pattern as SQL, for a list by an engine that shares nothing with this one.

use std::fmt::Write;

use crate::day::Days;
use crate::document::{Document, Hang, Pattern};
use crate::packed::edge::ANY_LABEL;
use crate::packed::query::Query;

/// Rows of one INSERT.
const BATCH: usize = 500;

/// Statements that SQLite and PostgreSQL run as they are: temporary tables, and a SELECT of every place.
pub fn sql(document: &Document, hang: &Hang, pattern: &Pattern, query: &Query) -> String {
    let mut out = String::new();
    for (name, number) in document.item_kinds.iter() {
        let _ = writeln!(out, "-- item kind {number}: {}", name.escape_debug());
    }
    for (name, number) in document.connection_kinds.iter() {
        let _ = writeln!(out, "-- connection kind {number}: {}", name.escape_debug());
    }
    out.push_str(
        "-- A day is a number of days since 1 January 2000, and 0 is none.\n\
         BEGIN;\n\
         CREATE TEMPORARY TABLE item (number INTEGER PRIMARY KEY, name TEXT NOT NULL, kind INTEGER NOT NULL, day INTEGER NOT NULL);\n\
         CREATE TEMPORARY TABLE connection (source INTEGER NOT NULL, kind INTEGER NOT NULL, target INTEGER NOT NULL);\n",
    );
    let items = (0..)
        .zip(&hang.graph.vertices)
        .map(|(number, item)| format!("({number},{},{},{})", text(&hang.item(number)), item.label, item.day.0));
    insert(&mut out, "item", items);
    let edges = hang.graph.edges.iter().map(|e| format!("({},{},{})", e.source, e.label, e.target));
    insert(&mut out, "connection", edges);
    out.push_str(
        "CREATE TEMPORARY TABLE touch AS SELECT DISTINCT source, target FROM connection;\n\
         CREATE INDEX connection_source ON connection (source, kind, target);\n\
         CREATE INDEX connection_target ON connection (target, kind, source);\n\
         CREATE INDEX connection_kind ON connection (kind);\n\
         CREATE INDEX touch_source ON touch (source, target);\n\
         CREATE INDEX touch_target ON touch (target, source);\n\
         COMMIT;\n\
         ANALYZE item;\n\
         ANALYZE connection;\n\
         ANALYZE touch;\n",
    );
    select(&mut out, pattern, query);
    out
}

fn insert(out: &mut String, table: &str, rows: impl Iterator<Item = String>) {
    for (i, row) in rows.enumerate() {
        match i % BATCH {
            0 if i > 0 => {
                let _ = write!(out, ";\nINSERT INTO {table} VALUES\n{row}");
            }
            0 => {
                let _ = write!(out, "INSERT INTO {table} VALUES\n{row}");
            }
            _ => {
                let _ = write!(out, ",\n{row}");
            }
        }
    }
    if out.ends_with(')') {
        out.push_str(";\n");
    }
}

fn select(out: &mut String, pattern: &Pattern, query: &Query) {
    let n = query.vertices.len();
    let columns: Vec<String> =
        (0..n).map(|v| format!("v{v}.name AS {}", identifier(&pattern.vertex(v as u32)))).collect();
    let mut tables: Vec<String> = (0..n).map(|v| format!("item v{v}")).collect();
    let mut conditions = Vec::new();
    for (v, asked) in query.vertices.iter().enumerate() {
        if asked.label != 0 {
            conditions.push(format!("v{v}.kind = {}", asked.label));
        }
        if asked.days != Days::ALL {
            conditions.push(format!("v{v}.day BETWEEN {} AND {}", asked.days.first.0, asked.days.last.0));
        }
    }
    for (i, e) in query.edges.iter().enumerate() {
        if e.label == ANY_LABEL {
            tables.push(format!("touch e{i}"));
        } else {
            tables.push(format!("connection e{i}"));
            conditions.push(format!("e{i}.kind = {}", e.label));
        }
        conditions.push(format!("e{i}.source = v{}.number", e.source));
        conditions.push(format!("e{i}.target = v{}.number", e.target));
    }
    for v in 1..n {
        for u in 0..v {
            conditions.push(format!("v{u}.number <> v{v}.number"));
        }
    }
    for p in &query.pairs {
        conditions.push(format!("v{}.number < v{}.number", p.low, p.high));
    }
    let order: Vec<String> = (0..n).map(|v| format!("v{v}.number")).collect();
    let _ = writeln!(
        out,
        "SELECT {}\nFROM {}\nWHERE {}\nORDER BY {};",
        columns.join(", "),
        tables.join(", "),
        conditions.join("\n  AND "),
        order.join(", ")
    );
}

/// A text in SQL.
fn text(value: &str) -> String {
    format!("'{}'", value.replace('\'', "''"))
}

fn identifier(name: &str) -> String {
    format!("\"{}\"", name.replace('"', "\"\""))
}
