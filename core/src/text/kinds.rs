//! Kinds that are met in a hang, and the numbers that they are dealt.

use crate::kinds::{Kinds, Written};
use crate::near::is_slip;
use crate::packed::edge::{EDGE_LABELS, VERTEX_LABELS};
use crate::text::draft::Draft;
use crate::text::fault::{Fault, Place};
use crate::text::lines::kind_fault;

impl Draft<'_> {
    /// The kind of an item by its name, or nothing after a fault was told.
    pub fn met_item_kind(&mut self, name: &str, place: Place) -> Option<Written> {
        let known = self.item_kinds.find(name);
        known.or_else(|| self.met_kind(name, place, true))
    }

    /// The kind of a connection by its name, or nothing after a fault was told.
    pub fn met_connection_kind(&mut self, name: &str, place: Place) -> Option<Written> {
        let known = self.connection_kinds.find(name);
        known.or_else(|| self.met_kind(name, place, false))
    }

    fn met_kind(&mut self, name: &str, place: Place, is_item: bool) -> Option<Written> {
        if let Some(reason) = kind_fault(name) {
            self.error(place, reason);
            return None;
        }
        let kinds = if is_item { &mut self.item_kinds } else { &mut self.connection_kinds };
        if let Some(written) = kinds.met(name, place) {
            return Some(written);
        }
        self.unknown_kind(name, place, is_item);
        None
    }

    /// Says that a name is no kind.
    pub fn unknown_kind(&mut self, name: &str, place: Place, is_item: bool) {
        let kinds = if is_item { &self.item_kinds } else { &self.connection_kinds };
        let what = if is_item { "item" } else { "connection" };
        let reason = match kinds.is_declared() {
            true => format!("no kind of {what} '{name}' is declared in [kinds]"),
            false => format!("no {what} of kind '{name}' is in the hang"),
        };
        let known: Vec<String> = kinds.iter().map(|(name, _)| name.to_string()).collect();
        self.unknown(place, reason, name, known.iter().map(String::as_str));
    }

    /// Gives each kind its number, and warns of names that look like slips of others.
    pub fn deal_kinds(&mut self) {
        let most = (VERTEX_LABELS.end(), EDGE_LABELS.end());
        if let Err(place) = self.item_kinds.deal(1..=*VERTEX_LABELS.end()) {
            self.error(place, format!("more than {} kinds of items", most.0));
        }
        if let Err(place) = self.connection_kinds.deal(EDGE_LABELS) {
            self.error(place, format!("more than {} kinds of connections", most.1));
        }
        let slips = slips(&self.item_kinds).into_iter().chain(slips(&self.connection_kinds));
        for (place, a, b) in slips.collect::<Vec<_>>() {
            let fault = Fault::warning(place, format!("the kinds '{a}' and '{b}' are two, and look like one"));
            self.faults.push(fault.help("name the kinds in [kinds], and others are errors"));
        }
    }
}

/// Kinds that are compared with each other: those of a hang are few.
const COMPARED: usize = 200;

/// Pairs of kinds that are not declared and look alike, with the place of the later one.
fn slips(kinds: &Kinds) -> Vec<(Place, String, String)> {
    let mut slips = Vec::new();
    if kinds.is_declared() {
        return slips;
    }
    let names: Vec<&str> = kinds.iter().map(|(name, _)| name).take(COMPARED).collect();
    for (i, a) in names.iter().enumerate() {
        for b in &names[..i] {
            if is_slip(a, b) {
                slips.push((kinds.places()[i], b.to_string(), a.to_string()));
            }
        }
    }
    slips
}
