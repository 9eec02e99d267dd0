//! The items of a hang as JSON.

use std::collections::BTreeMap;

use serde::ser::{Serialize, SerializeMap, Serializer};

use crate::day::Day;
use crate::document::{Document, Hang};
use crate::json::kind::{day, Kind};

/// The items of a hang: name, kind, day and notes of each.
pub struct Items<'d> {
    pub document: &'d Document,
    pub hang: &'d Hang,
}

struct Item<'d> {
    of: &'d Items<'d>,
    number: u32,
    notes: &'d [(u32, u32, String)],
}

impl Serialize for Items<'_> {
    fn serialize<S: Serializer>(&self, serializer: S) -> Result<S::Ok, S::Error> {
        let mut left = &self.hang.notes.notes[..];
        serializer.collect_seq((0..self.hang.graph.vertices.len() as u32).map(|number| {
            // Notes stand in the order of their items.
            let count = left.iter().take_while(|(item, _, _)| *item == number).count();
            let (notes, rest) = left.split_at(count);
            left = rest;
            Item { of: self, number, notes }
        }))
    }
}

impl Serialize for Item<'_> {
    fn serialize<S: Serializer>(&self, serializer: S) -> Result<S::Ok, S::Error> {
        let Items { document, hang } = self.of;
        let item = hang.graph.vertices[self.number as usize];
        let mut map = serializer.serialize_map(None)?;
        map.serialize_entry("name", &hang.item(self.number))?;
        map.serialize_entry("kind", &Kind { kinds: &document.item_kinds, label: item.label })?;
        if item.day != Day::NONE {
            map.serialize_entry("day", &day(item.day, hang.numbered_days.binary_search(&self.number).is_ok()))?;
        }
        if !self.notes.is_empty() {
            let column = |column: u32| hang.notes.columns[column as usize].as_str();
            let notes: BTreeMap<&str, &str> =
                self.notes.iter().map(|(_, c, value)| (column(*c), value.as_str())).collect();
            map.serialize_entry("notes", &notes)?;
        }
        if hang.names.get(self.number).is_none() {
            map.serialize_entry("unnamed", &true)?;
        }
        map.end()
    }
}
