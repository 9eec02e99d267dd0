//! A hang as tables.

use crate::day::Day;
use crate::document::{Document, Hang};

/// The names of the two tables.
pub const FILES: [&str; 2] = ["items.csv", "connections.csv"];

/// The table of items and the table of connections, in UTF-8 with CRLF.
pub fn tables(document: &Document, hang: &Hang) -> [Vec<u8>; 2] {
    [items(document, hang), connections(document, hang)]
}

fn writer() -> csv::Writer<Vec<u8>> {
    csv::WriterBuilder::new().terminator(csv::Terminator::CRLF).from_writer(Vec::new())
}

/// Writing to memory does not fail.
fn finish(writer: csv::Writer<Vec<u8>>) -> Vec<u8> {
    writer.into_inner().unwrap_or_default()
}

fn items(document: &Document, hang: &Hang) -> Vec<u8> {
    let columns = &hang.notes.columns;
    let mut out = writer();
    let head = ["name", "kind", "day"].iter().copied().chain(columns.iter().map(String::as_str));
    let _ = out.write_record(head);
    let mut notes = hang.notes.notes.iter().peekable();
    for (number, item) in (0..).zip(&hang.graph.vertices) {
        let mut record = vec![hang.item(number).into_owned(), String::new(), String::new()];
        if item.label != 0 {
            record[1] = document.item_kinds.name(item.label).map_or_else(|| item.label.to_string(), str::to_string);
        }
        if item.day != Day::NONE {
            record[2] = item.day.to_string();
        }
        record.resize(3 + columns.len(), String::new());
        while let Some((_, column, value)) = notes.peek().filter(|(of, _, _)| *of == number) {
            record[3 + *column as usize] = value.clone();
            notes.next();
        }
        let _ = out.write_record(&record);
    }
    finish(out)
}

fn connections(document: &Document, hang: &Hang) -> Vec<u8> {
    let mut out = writer();
    let _ = out.write_record(["from", "kind", "to"]);
    for e in &hang.graph.edges {
        let (from, to) = (hang.item(e.source), hang.item(e.target));
        let kind = document.connection_kind(e.label);
        let _ = out.write_record([from.as_ref(), kind.as_ref(), to.as_ref()]);
    }
    finish(out)
}
