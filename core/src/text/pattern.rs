//! The lines of a `[query]`, with their names resolved.

use crate::day::Days;
use crate::document::{Document, Pattern};
use crate::names::Names;
use crate::packed::edge::{Edge, ANY, VERTEX_LABELS};
use crate::packed::pair::{contradiction, Pair};
use crate::packed::query::{Query, Vertex};
use crate::packed::rules::is_connected;
use crate::text::draft::{expect, Block, Draft, Line};
use crate::text::fault::{Fault, Place};
use crate::text::hang::{refused, resolve, NotFound};
use crate::text::lines::{bare_name_fault, no_form, place, span, split_kind};
use crate::text::words::{is_number, number, Form, Word};

/// A pattern as far as it was read.
struct Sketch<'b> {
    block: &'b Block,
    pattern: Pattern,
    edges: Vec<(Edge, Place)>,
    pairs: Vec<(Pair, Place)>,
    /// How many errors there were before it.
    errors: usize,
}

impl Draft<'_> {
    pub fn resolve_patterns(&mut self, document: &Document) -> Vec<Pattern> {
        let blocks = std::mem::take(&mut self.queries);
        let mut patterns = Vec::new();
        for block in &blocks {
            patterns.push(self.resolve_pattern(document, block));
        }
        self.resolve_plans(document, &blocks, &mut patterns);
        patterns
    }

    fn resolve_pattern(&mut self, document: &Document, block: &Block) -> Pattern {
        let empty = Query { vertices: Vec::new(), edges: Vec::new(), pairs: Vec::new() };
        let mut sketch = Sketch {
            block,
            pattern: Pattern {
                name: block.name.clone(),
                sentence: block.sentence.clone(),
                query: empty,
                names: Names::default(),
                numbered_days: Vec::new(),
                plan: None,
                expect: None,
                place: block.head,
                fault: None,
                plan_fault: None,
            },
            edges: Vec::new(),
            pairs: Vec::new(),
            errors: self.faults.errors(),
        };
        // Vertices first, so that a connection may stand above them.
        let rest: Vec<&Line> =
            block.lines.iter().filter(|line| !self.vertex_line(document, &mut sketch, line)).collect();
        for line in rest {
            self.other_line(document, &mut sketch, line);
        }
        self.finish_pattern(document, sketch)
    }

    /// Reads a line that declares vertices or says what to expect; another is left.
    fn vertex_line(&mut self, document: &Document, sketch: &mut Sketch, line: &Line) -> bool {
        let text = sketch.block.text;
        let source = self.source(text);
        match line.words[..] {
            [vertex, name, ref rest @ ..] if vertex.is(source, "vertex") && name.is_name() => {
                self.vertex(document, sketch, name, rest);
            }
            [name, colon, ref rest @ ..] if name.is_name() && colon.form == Form::Colon => {
                self.vertex(document, sketch, name, rest);
            }
            [vertices, count, ref rest @ ..] if vertices.is(source, "vertices") && count.is_name() => {
                match number("count", &count.text(source), 0..=u32::MAX) {
                    Ok(count) => self.vertices(document, sketch, None, count, rest, span(text, &line.words)),
                    Err(reason) => self.error(place(text, count), reason),
                }
            }
            [word, ref rest @ ..] if word.is(source, "expect") && !is_about(source, rest) => {
                let words: Vec<&str> = rest.iter().map(|w| w.raw(source)).collect();
                match (expect(&words), sketch.pattern.expect) {
                    (Some(expect), None) => sketch.pattern.expect = Some(expect),
                    (Some(_), Some(_)) => self.error(span(text, &line.words), "a second 'expect'"),
                    (None, _) => {
                        let reason = "expected 'expect 0', 'expect at least 1' or 'expect at most 2'";
                        self.error(span(text, &line.words), reason);
                    }
                }
            }
            _ => return false,
        }
        true
    }

    fn vertex(&mut self, document: &Document, sketch: &mut Sketch, name: Word, rest: &[Word]) {
        let text = sketch.block.text;
        let spelled = name.text(self.source(text));
        let at = place(text, name);
        if let Some(reason) = bare_name_fault(name, &spelled) {
            return self.error(at, reason);
        }
        if let Some(first) = sketch.pattern.names.find(&spelled) {
            return self.error(at, format!("'{spelled}' is the name of vertex {first} already"));
        }
        self.vertices(document, sketch, Some(&spelled), 1, rest, at);
    }

    fn vertices(
        &mut self,
        document: &Document,
        sketch: &mut Sketch,
        name: Option<&str>,
        count: u32,
        rest: &[Word],
        at: Place,
    ) {
        let described = self.describe_vertex(document, sketch.block.text, rest);
        let (vertex, numbered) = described.unwrap_or((Vertex { label: 0, days: Days::ALL }, false));
        let first = sketch.pattern.query.vertices.len();
        let most = *Query::LIMITS.vertices.end();
        if count as usize > most - first {
            return self.error(at, format!("more than {most} vertices"));
        }
        match name {
            Some(name) => drop(sketch.pattern.names.add(name)),
            None => sketch.pattern.names.add_unnamed(count as usize),
        }
        sketch.pattern.query.vertices.resize(first + count as usize, vertex);
        if numbered {
            sketch.pattern.numbered_days.extend(first as u32..first as u32 + count);
        }
    }

    /// The vertex that words describe, and whether its days are numbers; or nothing after a fault was told.
    fn describe_vertex(&mut self, document: &Document, text: u32, rest: &[Word]) -> Option<(Vertex, bool)> {
        let source = self.source(text);
        let (kind, rest) = split_kind(self, text, rest)?;
        let label = match kind {
            Some(word) => self.vertex_kind(document, text, word)?,
            None => 0,
        };
        match *rest {
            [] => Some((Vertex { label, days: Days::ALL }, false)),
            [word, days] if word.is(source, "inspected") && days.is_name() => {
                let spelled = days.text(source);
                match Days::read(&spelled) {
                    Ok(days) => Some((Vertex { label, days }, !spelled.contains('-'))),
                    Err(reason) => {
                        self.error(place(text, days), reason);
                        None
                    }
                }
            }
            [word, _] if word.is(source, "day") => {
                let reason = "'day' is for graph vertices; a query vertex has 'inspected FIRST..LAST'";
                self.error(span(text, rest), reason);
                None
            }
            _ => {
                self.error(span(text, rest), EXPECTED_VERTEX);
                None
            }
        }
    }

    /// The kind that a word of a pattern names or is the number of.
    fn vertex_kind(&mut self, document: &Document, text: u32, word: Word) -> Option<u32> {
        let spelled = word.text(self.source(text));
        let at = place(text, word);
        if word.form == Form::Bare && (is_number(&spelled) || spelled.starts_with('+')) {
            return number("vertex label", &spelled, VERTEX_LABELS).map_err(|reason| self.error(at, reason)).ok();
        }
        if word.form == Form::Bare && spelled == ANY {
            return Some(0);
        }
        let kinds = &document.item_kinds;
        let found = kinds.find(&spelled).map(|written| kinds.number(written));
        if found.is_none() {
            self.no_kind(document, &spelled, at, true);
        }
        found
    }

    /// Reads a line that declares no vertex: a connection or a pair.
    fn other_line(&mut self, document: &Document, sketch: &mut Sketch, line: &Line) {
        let text = sketch.block.text;
        let source = self.source(text);
        let at = span(text, &line.words);
        match line.words[..] {
            [from, arrow, to] if arrow.is_arrow() && from.is_name() && to.is_name() => {
                let names = &sketch.pattern.names;
                let source_end = self.find_vertex(names, text, from);
                let label = self.find_label(document, text, arrow, true);
                let target = self.find_vertex(names, text, to);
                if let (Some(source), Some(label), Some(target)) = (source_end, label, target) {
                    self.add_edge(sketch, Edge { source, label, target }, at);
                }
            }
            [low, below, high] if below.is(source, "<") && low.is_name() && high.is_name() => {
                let names = &sketch.pattern.names;
                let low = self.find_vertex(names, text, low);
                let high = self.find_vertex(names, text, high);
                if let (Some(low), Some(high)) = (low, high) {
                    self.add_pair(sketch, Pair { low, high }, at);
                }
            }
            _ => no_form(self, text, &line.words, EXPECTED_VERTEX),
        }
    }

    /// The number of a pattern's vertex, or nothing after a fault was told.
    pub fn find_vertex(&mut self, names: &Names, text: u32, word: Word) -> Option<u32> {
        let spelled = word.text(self.source(text));
        let at = place(text, word);
        match resolve(names, word, &spelled) {
            Ok(vertex) => Some(vertex),
            Err(NotFound::Both) => {
                let reason = format!("'{spelled}' is the name of one vertex and the number of another");
                self.faults
                    .push(Fault::error(at, reason).help(format!("write \"{spelled}\" for the one of that name")));
                None
            }
            Err(NotFound::Unknown) => {
                let reason = format!("no vertex '{spelled}' has been declared");
                self.unknown(at, reason, &spelled, names.iter().map(|(_, name)| name));
                None
            }
        }
    }

    fn add_edge(&mut self, sketch: &mut Sketch, edge: Edge, at: Place) {
        let most = *Query::LIMITS.edges.end();
        if edge.source == edge.target {
            return self.error(at, "a query edge joins two different vertices");
        }
        if let Some(&(_, first)) = sketch.edges.iter().find(|(other, _)| *other == edge) {
            let line = self.line_of(first, at.text);
            return self.error(at, format!("the edge stands at {line} already"));
        }
        if sketch.edges.len() == most {
            return self.error(at, format!("more than {most} edges"));
        }
        sketch.edges.push((edge, at));
    }

    fn add_pair(&mut self, sketch: &mut Sketch, pair: Pair, at: Place) {
        let most = *Query::LIMITS.pairs.end();
        if pair.low == pair.high {
            return self.error(at, "a pair has two different vertices");
        }
        if let Some(&(_, first)) = sketch.pairs.iter().find(|(other, _)| *other == pair) {
            let line = self.line_of(first, at.text);
            return self.error(at, format!("the pair stands at {line} already"));
        }
        if sketch.pairs.len() == most {
            return self.error(at, format!("more than {most} pairs"));
        }
        sketch.pairs.push((pair, at));
    }

    fn finish_pattern(&mut self, document: &Document, sketch: Sketch) -> Pattern {
        let Sketch { block, mut pattern, edges, pairs, errors } = sketch;
        let counts = [
            ("vertices", pattern.query.vertices.len(), *Query::LIMITS.vertices.start()),
            ("edges", edges.len(), *Query::LIMITS.edges.start()),
        ];
        for (what, count, least) in counts {
            if count < least && self.faults.errors() == errors {
                self.error(block.head, format!("too few {what}: {count}, at least {least}"));
                break;
            }
        }
        let plain: Vec<Pair> = pairs.iter().map(|&(pair, _)| pair).collect();
        if let Some(i) = contradiction(&plain) {
            let (pair, at) = pairs[i];
            let (low, high) = (pattern.vertex(pair.low), pattern.vertex(pair.high));
            self.warn(at, format!("the pairs above contradict {low} < {high}; nothing will match"));
        }
        pattern.query = Query::new(pattern.query.vertices, edges.iter().map(|&(e, _)| e).collect(), plain);
        if pattern.query.vertices.len() > 1 && !is_connected(&pattern.query) {
            pattern.fault = Some(refused(block.head, 11, "the query is not connected"));
        }
        self.warn_of_numbers(document, &pattern);
        pattern
    }

    /// Warns of numbers of kinds that nothing in the hang has.
    fn warn_of_numbers(&mut self, document: &Document, pattern: &Pattern) {
        let hang = match &document.hang {
            Some(hang) => hang,
            None => return,
        };
        for v in &pattern.query.vertices {
            let is_missing = v.label != 0 && document.item_kinds.name(v.label).is_none();
            if is_missing && hang.graph.vertices.iter().all(|item| item.label != v.label) {
                let reason = format!("no item of the hang has label {}; nothing will match", v.label);
                return self.warn(pattern.place, reason);
            }
        }
        for e in &pattern.query.edges {
            let is_missing = e.label != 0 && document.connection_kinds.name(e.label).is_none();
            if is_missing && hang.graph.edges.iter().all(|other| other.label != e.label) {
                let reason = format!("no connection of the hang has label {}; nothing will match", e.label);
                return self.warn(pattern.place, reason);
            }
        }
    }
}

/// The words after the first make a connection or a pair of it, so that it is a vertex.
fn is_about(source: &str, rest: &[Word]) -> bool {
    rest.first().map_or(false, |w| w.is_arrow() || w.form == Form::Colon || w.is(source, "<"))
}

const EXPECTED_VERTEX: &str = "expected a vertex 'NAME: KIND' or 'vertex NAME', several 'vertices COUNT', each with 'label L' \
                               and 'inspected FIRST..LAST' after it or without; a connection 'A -KIND-> B' with blanks around \
                               the arrow; a pair 'A < B'; or 'expect 0'";
