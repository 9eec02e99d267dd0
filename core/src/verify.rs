//! The check of an answer: what is neither packed nor printed by a proved function is compared with the text.

use crate::day::Days;
use crate::document::{Document, Hang, Pattern};
use crate::packed::edge::{Edge, ANY_LABEL};
use crate::packed::graph::{key, Graph};
use crate::packed::plan::Plan;
use crate::packed::query::Query;

/// The packed hang, unpacked, is the one that was read.
pub fn graph(bytes: &[u8], graph: &Graph) -> Result<(), String> {
    match Graph::from_bytes(bytes) {
        Ok(unpacked) if unpacked == *graph => Ok(()),
        Ok(_) => Err("the packed hang unpacks to another".into()),
        Err(fault) => Err(format!("the packed hang does not unpack: {fault}")),
    }
}

/// The packed pattern, unpacked, is the one that was read.
pub fn query(bytes: &[u8], query: &Query) -> Result<(), String> {
    match Query::from_bytes(bytes) {
        Ok(unpacked) if unpacked == *query => Ok(()),
        Ok(_) => Err("the packed pattern unpacks to another".into()),
        Err(fault) => Err(format!("the packed pattern does not unpack: {fault}")),
    }
}

/// The plan of bytes, and that it packs to them again.
pub fn plan(bytes: &[u8], query: &Query) -> Result<Plan, String> {
    let plan = Plan::from_bytes(bytes, query).map_err(|fault| format!("the plan does not unpack: {fault}"))?;
    if plan.to_bytes() != bytes {
        return Err("the plan packs to other bytes".into());
    }
    Ok(plan)
}

/// Tests rows by the names that are printed for them, against the text.
pub struct Rows<'d> {
    document: &'d Document,
    hang: &'d Hang,
    pattern: &'d Pattern,
    query: &'d Query,
    /// The connections of the hang that the rows are of.
    edges: &'d [Edge],
    /// Items whose name was found to be theirs.
    named: Vec<bool>,
}

impl<'d> Rows<'d> {
    pub fn new(
        document: &'d Document,
        hang: &'d Hang,
        pattern: &'d Pattern,
        query: &'d Query,
        edges: &'d [Edge],
    ) -> Rows<'d> {
        Rows { document, hang, pattern, query, edges, named: vec![false; hang.names.len()] }
    }

    /// Tests all rows; a row's ends that are as in the row before need no second look.
    pub fn test(&mut self, rows: &[u32]) -> Result<(), String> {
        let width = self.query.vertices.len();
        let mut before: &[u32] = &[];
        for row in rows.chunks_exact(width) {
            self.test_row(row, before).map_err(|reason| {
                let names: Vec<_> = row.iter().map(|&item| self.hang.item(item)).collect();
                format!("the row ({}) {reason}", names.join(", "))
            })?;
            before = row;
        }
        Ok(())
    }

    fn test_row(&mut self, row: &[u32], before: &[u32]) -> Result<(), String> {
        let is_same = |v: usize| before.get(v) == Some(&row[v]);
        for (v, &item) in row.iter().enumerate() {
            if !is_same(v) {
                self.test_item(v, item)?;
            }
        }
        for v in 1..row.len() {
            if row[..v].contains(&row[v]) {
                return Err(format!("has {} twice", self.hang.item(row[v])));
            }
        }
        for e in &self.query.edges {
            let (a, b) = (e.source as usize, e.target as usize);
            let is_tested = is_same(a) && is_same(b);
            if !is_tested && !self.has_edge(row[a], e.label, row[b]) {
                return Err(format!("has not the connection {}", self.document.pattern_edge(self.pattern, e)));
            }
        }
        for p in &self.query.pairs {
            if row[p.low as usize] >= row[p.high as usize] {
                let (low, high) = (self.pattern.vertex(p.low), self.pattern.vertex(p.high));
                return Err(format!("has not {low} < {high}"));
            }
        }
        Ok(())
    }

    fn test_item(&mut self, v: usize, item: u32) -> Result<(), String> {
        let asked = &self.query.vertices[v];
        let found = match self.hang.graph.vertices.get(item as usize) {
            Some(found) => found,
            None => return Err(format!("has number {item}, which no item has")),
        };
        if !self.named[item as usize] {
            let name = self.hang.item(item);
            if self.hang.find(&name) != Some(item) {
                return Err(format!("has '{name}', which is another item's name"));
            }
            self.named[item as usize] = true;
        }
        let Days { first, last } = asked.days;
        let fits = (asked.label == 0 || asked.label == found.label) && first <= found.day && found.day <= last;
        if !fits {
            return Err(format!("has {}, which does not fit {}", self.hang.item(item), self.pattern.vertex(v as u32)));
        }
        Ok(())
    }

    fn has_edge(&self, source: u32, label: u32, target: u32) -> bool {
        if label != ANY_LABEL {
            return self.edges.binary_search_by_key(&(source, label, target), key).is_ok();
        }
        let first = self.edges.partition_point(|e| e.source < source);
        self.edges[first..].iter().take_while(|e| e.source == source).any(|e| e.target == target)
    }
}
