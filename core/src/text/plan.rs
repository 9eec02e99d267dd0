//! The lines of a `[plan]`.

use crate::document::{Document, Pattern};
use crate::packed::edge::Edge;
use crate::packed::plan::{Operator, Plan};
use crate::packed::rules::{broken_rule, Spelling};
use crate::text::draft::{Block, Draft, Line};
use crate::text::hang::refused;
use crate::text::words::number;

impl Draft<'_> {
    /// Gives each pattern its plan.
    pub fn resolve_plans(&mut self, document: &Document, queries: &[Block], patterns: &mut [Pattern]) {
        for block in std::mem::take(&mut self.plans) {
            let owner = match self.owner(&block, queries) {
                Some(owner) => owner,
                None => continue,
            };
            let plan = self.plan(document, &block, &patterns[owner]);
            let pattern = &mut patterns[owner];
            if pattern.plan.is_some() {
                let reason = format!("a second [plan] of the query '{}'", pattern.title());
                self.error(block.head, reason);
                continue;
            }
            if let Some((plan, places)) = plan {
                if pattern.fault.is_none() {
                    let spelling = Spelling {
                        vertex: &|v| pattern.vertex(v).into_owned(),
                        edge: &|e| document.pattern_edge(pattern, e),
                    };
                    let fault = broken_rule(&pattern.query, &plan, &spelling).map(|broken| {
                        let at = broken.operator.map_or(block.head, |i| places[i]);
                        refused(at, broken.refusal, &broken.reason)
                    });
                    pattern.plan_fault = fault;
                }
                pattern.plan = Some(plan);
            }
        }
    }

    /// The query that a plan is for: the one of its name; else the one above it; else the only one.
    fn owner(&mut self, block: &Block, queries: &[Block]) -> Option<usize> {
        if queries.is_empty() {
            self.error(block.head, "a [plan] needs its [query]");
            return None;
        }
        if let Some(name) = &block.name {
            let found = queries.iter().position(|q| q.name.as_ref() == Some(name));
            if found.is_none() {
                let reason = format!("no [query {name}] for this plan");
                self.unknown(block.head, reason, name, queries.iter().filter_map(|q| q.name.as_deref()));
            }
            return found;
        }
        let is_above = |q: &Block| q.text == block.text && q.head.start < block.head.start;
        let above = queries.iter().rposition(is_above);
        if above.is_none() && queries.len() > 1 {
            self.error(
                block.head,
                "which query is this plan for? Write it below its [query], or with its name: [plan NAME]",
            );
            return None;
        }
        above.or(Some(0))
    }

    fn plan(
        &mut self,
        document: &Document,
        block: &Block,
        pattern: &Pattern,
    ) -> Option<(Plan, Vec<crate::text::fault::Place>)> {
        let mut operators = Vec::new();
        let mut places = Vec::new();
        let before = self.faults.errors();
        for line in &block.lines {
            if operators.len() == *Plan::OPERATORS.end() {
                let reason = format!("more than {} operators", Plan::OPERATORS.end());
                self.error(block.place(line), reason);
                break;
            }
            if let Some(operator) = self.operator(document, block, pattern, line) {
                operators.push(operator);
                places.push(block.place(line));
            }
        }
        if block.lines.is_empty() {
            self.error(block.head, "too few operators: 0, at least 1");
        }
        (self.faults.errors() == before).then_some((Plan { operators }, places))
    }

    fn operator(&mut self, document: &Document, block: &Block, pattern: &Pattern, line: &Line) -> Option<Operator> {
        let source = self.source(block.text);
        let at = block.place(line);
        match line.words[..] {
            [scan, index] if scan.is(source, "scan") && index.is_name() => {
                if pattern.query.edges.is_empty() {
                    return None;
                }
                let last = pattern.query.edges.len() as u32 - 1;
                let read = number("query edge", &index.text(source), 0..=last);
                read.map_err(|reason| self.error(at, reason)).ok().map(Operator::Scan)
            }
            [scan, from, arrow, to]
                if scan.is(source, "scan") && arrow.is_arrow() && from.is_name() && to.is_name() =>
            {
                let source_end = self.find_vertex(&pattern.names, block.text, from);
                let label = self.find_label(document, block.text, arrow, true);
                let target = self.find_vertex(&pattern.names, block.text, to);
                let edge = Edge { source: source_end?, label: label?, target: target? };
                let found = pattern.query.edges.iter().position(|&e| e == edge);
                if found.is_none() {
                    self.error(at, format!("the query has no edge {}", document.pattern_edge(pattern, &edge)));
                }
                found.map(|i| Operator::Scan(i as u32))
            }
            [extend, vertex] if extend.is(source, "extend") && vertex.is_name() => {
                self.find_vertex(&pattern.names, block.text, vertex).map(Operator::Extend)
            }
            [join] if join.is(source, "join") => Some(Operator::Join),
            _ => {
                self.error(at, "expected 'scan A -L-> B', 'scan INDEX', 'extend V' or 'join'");
                None
            }
        }
    }
}
