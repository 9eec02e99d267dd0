//! A pattern that was read, as JSON.

use serde::ser::{Serialize, SerializeMap, Serializer};
use serde_json::{json, Value};

use crate::document::{Document, Expect, Pattern};
use crate::json::kind::{days, Kind};
use crate::json::{fault, pair_words};
use crate::packed::edge::Edge;
use crate::packed::query::Vertex;
use crate::source::Text;
use crate::{symmetry, write};

pub struct PatternJson<'d> {
    pub document: &'d Document,
    pub pattern: &'d Pattern,
    pub texts: &'d [Text<'d>],
    /// How many sources stand before those of the caller.
    pub before: u32,
}

impl Serialize for PatternJson<'_> {
    fn serialize<S: Serializer>(&self, serializer: S) -> Result<S::Ok, S::Error> {
        let PatternJson { pattern, texts, .. } = *self;
        let query = &pattern.query;
        let mut map = serializer.serialize_map(None)?;
        map.serialize_entry("title", pattern.title())?;
        map.serialize_entry("name", &pattern.name)?;
        map.serialize_entry("sentence", &pattern.sentence)?;
        map.serialize_entry("expect", &pattern.expect.map(expect))?;
        map.serialize_entry("vertices", &self.vertices())?;
        map.serialize_entry("edges", &self.edges())?;
        let pairs: Vec<Value> = query.pairs.iter().map(|p| json!({ "low": p.low, "high": p.high })).collect();
        map.serialize_entry("pairs", &pairs)?;
        map.serialize_entry("plan", &self.plan())?;
        map.serialize_entry("source", &(pattern.place.text - self.before))?;
        let (first, last) = lines(texts, pattern);
        map.serialize_entry("firstLine", &first)?;
        map.serialize_entry("lastLine", &last)?;
        map.serialize_entry("images", &symmetry::exchanges(query).len())?;
        map.serialize_entry("pairsAdded", &pair_words(pattern, &symmetry::pairs(query)))?;
        map.serialize_entry("fault", &pattern.fault.as_ref().map(|f| fault(texts, f)))?;
        map.serialize_entry("planFault", &pattern.plan_fault.as_ref().map(|f| fault(texts, f)))?;
        map.end()
    }
}

impl PatternJson<'_> {
    fn vertices(&self) -> Vec<Value> {
        let PatternJson { document, pattern, .. } = *self;
        let vertex = |(v, vertex): (u32, &Vertex)| {
            json!({
                "name": pattern.names.get(v),
                "kind": Kind { kinds: &document.item_kinds, label: vertex.label },
                "days": days(vertex.days, pattern.numbered_days.contains(&v)),
            })
        };
        (0..).zip(&pattern.query.vertices).map(vertex).collect()
    }

    fn edges(&self) -> Vec<Value> {
        let kinds = &self.document.connection_kinds;
        let edge = |e: &Edge| json!({ "from": e.source, "to": e.target, "kind": Kind { kinds, label: e.label } });
        self.pattern.query.edges.iter().map(edge).collect()
    }

    /// The lines of its plan as the text form writes them.
    fn plan(&self) -> Option<Vec<String>> {
        self.pattern.plan.as_ref()?;
        let mut text = String::new();
        write::pattern(&mut text, self.document, self.pattern);
        let after = text.lines().skip_while(|line| *line != "[plan]").skip(1);
        Some(after.map(str::to_string).collect())
    }
}

fn expect(expect: Expect) -> Value {
    let (is, count) = match expect {
        Expect::Exactly(n) => ("exactly", n),
        Expect::AtLeast(n) => ("at least", n),
        Expect::AtMost(n) => ("at most", n),
    };
    json!({ "is": is, "count": count })
}

/// The first and the last line of a pattern and of the plan that follows it.
fn lines(texts: &[Text], pattern: &Pattern) -> (usize, usize) {
    let text = texts[pattern.place.text as usize].text();
    let first = pattern.place.locate(texts).line;
    let (mut last, mut plans) = (first, 0);
    for (i, line) in text.lines().enumerate().skip(first) {
        let line = line.trim_start();
        if line.starts_with('[') {
            plans += 1;
            if plans > 1 || !is_plan_of(line, pattern) {
                break;
            }
        }
        if !line.is_empty() && !line.starts_with('#') {
            last = i + 1;
        }
    }
    (first, last)
}

/// The head of a plan without a name, or of this pattern's.
fn is_plan_of(head: &str, pattern: &Pattern) -> bool {
    let inside = head[1..].split(']').next().unwrap_or_default().trim();
    match inside.strip_prefix("plan") {
        Some("") => true,
        Some(name) => pattern.name.as_ref().map_or(false, |own| write::head_name(own) == name.trim()),
        None => false,
    }
}
