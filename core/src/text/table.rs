//! Tables of items and connections, as a spreadsheet saves them: RFC 4180, with a comma, a semicolon or a tab between cells.

use csv::{ByteRecord, ReaderBuilder};

use crate::day::Day;
use crate::document::Hang;
use crate::kinds::Written;
use crate::packed::edge::{EDGE_LABELS, VERTEX_LABELS};
use crate::packed::graph::Graph;
use crate::text::cells;
use crate::text::draft::{Draft, DraftEdge, DraftItem, End};
use crate::text::fault::{Fault, Place};
use crate::text::hang::NotFound;
use crate::text::words::{is_number, name_fault, number};

/// A table whose head was read.
pub struct Table {
    pub text: u32,
    /// Where its head begins.
    begin: usize,
    separator: u8,
    head: Vec<String>,
}

/// A table of connections that is read once all items are known.
pub struct Connections(Table);

const EXPECTED: &str =
    "expected a head with 'name' and 'kind', a table of items, or with 'from', 'kind' and 'to', a table of \
                        connections";

/// Reads a table of items; another is handed back if it is of connections.
pub fn read_items(draft: &mut Draft, text: u32) -> Option<Connections> {
    draft.from_tables = true;
    let table = Table::open(draft, text)?;
    let [name, from, to] = ["name", "from", "to"].map(|column| table.column(column));
    match (name, from, to) {
        (Some(name), None, None) => {
            items(draft, &table, name);
            None
        }
        (None, Some(_), Some(_)) => Some(Connections(table)),
        _ => {
            draft.error(table.head_place(draft), EXPECTED);
            None
        }
    }
}

impl Table {
    /// Reads the head of a table, and tests that quotes close.
    fn open(draft: &mut Draft, text: u32) -> Option<Table> {
        let source = draft.source(text);
        let begin = draft.texts[text as usize].begin();
        let line = source[begin..].lines().next().unwrap_or_default();
        let named = |separator: &u8| {
            let cells = line.split(char::from(*separator)).map(plain);
            cells.filter(|cell| ["name", "kind", "from", "to", "day"].contains(&cell.as_str())).count()
        };
        let separator = [b',', b';', b'\t'].into_iter().rev().max_by_key(named).unwrap_or(b',');
        if let Some((start, end, reason)) = cells::broken_quote(source, begin, separator) {
            draft.error(Place { text, start: start as u32, end: end as u32 }, reason);
            return None;
        }
        let mut table = Table { text, begin, separator, head: Vec::new() };
        let mut record = ByteRecord::new();
        let is_read = table.reader(source).read_byte_record(&mut record).unwrap_or(false);
        table.head = record.iter().map(|cell| plain(&String::from_utf8_lossy(cell))).collect();
        let repeated =
            (1..table.head.len()).find(|&i| !table.head[i].is_empty() && table.head[..i].contains(&table.head[i]));
        let place = table.head_place(draft);
        if let Some(i) = repeated {
            draft.error(place, format!("two columns are named '{}'", table.head[i]));
            return None;
        }
        if !is_read {
            draft.error(place, EXPECTED);
            return None;
        }
        Some(table)
    }

    fn reader<'s>(&self, source: &'s str) -> csv::Reader<&'s [u8]> {
        ReaderBuilder::new()
            .delimiter(self.separator)
            .has_headers(false)
            .flexible(true)
            .from_reader(&source.as_bytes()[self.begin..])
    }

    fn column(&self, name: &str) -> Option<usize> {
        self.head.iter().position(|cell| cell == name)
    }

    fn head_place(&self, draft: &Draft) -> Place {
        let source = draft.source(self.text);
        let end = source[self.begin..].find('\n').map_or(source.len(), |i| self.begin + i);
        Place { text: self.text, start: self.begin as u32, end: end as u32 }
    }

    /// The place of a cell of the record that begins at a byte.
    fn cell(&self, draft: &Draft, record: u64, cell: usize) -> Place {
        let source = draft.source(self.text);
        let start = self.begin + record as usize;
        let (start, end) = cells::span(source, start, self.separator, cell);
        Place { text: self.text, start: start as u32, end: end as u32 }
    }

    /// Hands each record below the head to a reader of it, with the byte where it begins.
    fn each(&self, draft: &mut Draft, mut read: impl FnMut(&mut Draft, &Row) -> bool) {
        let source = draft.source(self.text);
        let mut reader = self.reader(source);
        let mut record = ByteRecord::new();
        let mut is_head = true;
        loop {
            let at = reader.position().byte();
            match reader.read_byte_record(&mut record) {
                Ok(false) => return,
                Err(e) => {
                    let place = self.cell(draft, at, 0);
                    return draft.error(place, format!("the table cannot be read: {e}"));
                }
                Ok(true) if std::mem::take(&mut is_head) => {}
                Ok(true) if record.iter().all(|cell| cell.is_empty()) => {}
                Ok(true) => {
                    let at = record.position().map_or(at, |p| p.byte());
                    if !read(draft, &Row { table: self, record: &record, at }) {
                        return;
                    }
                }
            }
        }
    }
}

/// A cell of a head as it is compared.
fn plain(cell: &str) -> String {
    cell.trim().trim_matches('"').trim().to_lowercase()
}

/// A record of a table.
struct Row<'a> {
    table: &'a Table,
    record: &'a ByteRecord,
    at: u64,
}

impl Row<'_> {
    /// What a cell says; the source is UTF-8, and so are its cells.
    fn cell(&self, i: usize) -> &str {
        self.record.get(i).and_then(|cell| std::str::from_utf8(cell).ok()).unwrap_or_default()
    }

    fn place(&self, draft: &Draft, i: usize) -> Place {
        self.table.cell(draft, self.at, i)
    }

    /// Tests that the record has no cell past the head's.
    fn is_narrow(&self, draft: &mut Draft) -> bool {
        let count = self.table.head.len();
        let extra = (count..self.record.len()).find(|&i| !self.cell(i).is_empty());
        if let Some(i) = extra {
            let place = self.place(draft, i);
            draft.error(place, format!("the row has more cells than the head's {count}"));
        }
        extra.is_none()
    }
}

fn items(draft: &mut Draft, table: &Table, name: usize) {
    let [kind, day] = ["kind", "day"].map(|column| table.column(column));
    let others: Vec<usize> = (0..table.head.len()).filter(|i| ![Some(name), kind, day].contains(&Some(*i))).collect();
    let titles: Vec<String> = others.iter().map(|&i| title(table, i)).collect();
    table.each(draft, |draft, row| {
        if !row.is_narrow(draft) {
            return true;
        }
        let most = *Graph::LIMITS.vertices.end();
        if draft.items.len() == most {
            let place = row.place(draft, name);
            draft.error(place, format!("more than {most} items"));
            return false;
        }
        let spelled = row.cell(name);
        if let Some(reason) = name_fault(spelled) {
            let place = row.place(draft, name);
            draft.error(place, reason);
            return true;
        }
        let item = draft.items.len() as u32;
        if let Err(first) = draft.names.add(spelled) {
            let place = row.place(draft, name);
            draft.error(place, format!("'{spelled}' is the name of item {first} already"));
            return true;
        }
        if is_number(spelled) {
            let place = row.place(draft, name);
            draft.digit_names.push((item, place));
        }
        let kind = kind.and_then(|column| kind_cell(draft, row, column, true));
        let day = day.map_or(Day::NONE, |column| day_cell(draft, row, column));
        draft.items.push(DraftItem { kind, day });
        for (&i, title) in others.iter().zip(&titles) {
            if !row.cell(i).is_empty() {
                draft.note(item, title, row.cell(i));
            }
        }
        true
    });
}

/// The head of a further column; a number for one without.
fn title(table: &Table, column: usize) -> String {
    match table.head[column].as_str() {
        "" => format!("column {}", column + 1),
        title => title.to_string(),
    }
}

/// A day as an ISO date, or none. A number would be the sheet's own count of days, from another beginning.
fn day_cell(draft: &mut Draft, row: &Row, column: usize) -> Day {
    let cell = row.cell(column).trim();
    if cell.is_empty() {
        return Day::NONE;
    }
    let read = if is_number(cell) { Err(format!("'{cell}' is no date")) } else { Day::read(cell) };
    read.unwrap_or_else(|reason| {
        let place = row.place(draft, column);
        draft
            .faults
            .push(Fault::error(place, reason).help("a day stands in a table as 2026-11-15; format the column so"));
        Day::NONE
    })
}

/// The kind in a cell: a name, a number, or none; nothing also after a fault was told.
fn kind_cell(draft: &mut Draft, row: &Row, column: usize, is_item: bool) -> Option<Written> {
    let cell = row.cell(column);
    if cell.is_empty() {
        return None;
    }
    if !is_number(cell) {
        let kinds = if is_item { &draft.item_kinds } else { &draft.connection_kinds };
        if let Some(written) = kinds.find(cell) {
            return Some(written);
        }
        let place = row.place(draft, column);
        return match is_item {
            true => draft.met_item_kind(cell, place),
            false => draft.met_connection_kind(cell, place),
        };
    }
    let read = match is_item {
        true => number("vertex label", cell, VERTEX_LABELS),
        false => number("edge label", cell, EDGE_LABELS),
    };
    match read {
        Ok(label) => {
            let kinds = if is_item { &mut draft.item_kinds } else { &mut draft.connection_kinds };
            kinds.met_number(label);
            Some(Written::Number(label))
        }
        Err(reason) => {
            let place = row.place(draft, column);
            draft.error(place, reason);
            None
        }
    }
}

pub fn read_connections(draft: &mut Draft, Connections(table): Connections) {
    let columns = ["from", "kind", "to"].map(|column| table.column(column));
    let (from, kind, to) = match columns {
        [Some(from), Some(kind), Some(to)] => (from, kind, to),
        _ => {
            let place = table.head_place(draft);
            return draft.error(place, EXPECTED);
        }
    };
    if let Some(i) = (0..table.head.len()).find(|&i| ![from, kind, to].contains(&i) && !table.head[i].is_empty()) {
        let place = table.head_place(draft);
        draft.warn(place, format!("the column '{}' of connections is not kept", table.head[i]));
    }
    table.each(draft, |draft, row| {
        if !row.is_narrow(draft) {
            return true;
        }
        if row.cell(kind).is_empty() {
            let place = row.place(draft, kind);
            draft.error(place, "a connection has a kind");
            return true;
        }
        let written = kind_cell(draft, row, kind, false);
        let source = end_cell(draft, row, from);
        let target = end_cell(draft, row, to);
        if let (Some(kind), Some(source), Some(target)) = (written, source, target) {
            let start = (row.table.begin as u64 + row.at) as u32;
            let (source, target) = (End::Item(source), End::Item(target));
            draft.edges.push(DraftEdge { text: row.table.text, source, kind, target, start, end: start });
        }
        true
    });
}

/// The item that a cell names, or is the number of where that has no name.
fn end_cell(draft: &mut Draft, row: &Row, column: usize) -> Option<u32> {
    let cell = row.cell(column);
    let found = Hang::find_in(&draft.names, cell);
    if found.is_none() {
        let place = row.place(draft, column);
        draft.no_item(place, cell, NotFound::Unknown);
    }
    found
}
