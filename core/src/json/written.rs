//! A pattern from JSON to the text form.

use serde_json::Value;

use crate::text::alone::kind_name;
use crate::text::words::{is_number, quote};
use crate::write::head_name;

/// A pattern as text, and the lines of its parts.
#[derive(Default)]
pub struct Written {
    pub text: String,
    count: usize,
    pub vertices: Vec<usize>,
    pub edges: Vec<usize>,
    pub pairs: Vec<usize>,
}

impl Written {
    /// The text of a pattern that is written as [`PatternJson`](crate::json::pattern::PatternJson) writes it.
    pub fn of(pattern: &Value) -> Option<Written> {
        let mut out = Written::default();
        let vertices = pattern["vertices"].as_array()?;
        let name = pattern["name"].as_str().map_or_else(String::new, |name| format!(" {}", head_name(name)));
        let one_line = |text: &str| text.split_whitespace().collect::<Vec<_>>().join(" ");
        let sentence = pattern["sentence"].as_str().map(one_line).filter(|s| !s.is_empty());
        out.line(&format!("[query{name}]{}", sentence.map_or_else(String::new, |s| format!(" # {s}"))));
        if let (Some(is), Some(count)) = (pattern["expect"]["is"].as_str(), pattern["expect"]["count"].as_u64()) {
            let is = if is == "exactly" { String::new() } else { format!("{is} ") };
            out.line(&format!("expect {is}{count}"));
        }
        for vertex in vertices {
            let line = out.line(&vertex_line(vertex));
            out.vertices.push(line);
        }
        let end = |number: &Value| -> Option<String> {
            let number = number.as_u64()?;
            let name = vertices.get(number as usize).and_then(|vertex| vertex["name"].as_str());
            Some(match name {
                Some(name) if is_number(name) => format!("\"{name}\""),
                Some(name) => quote(name).into_owned(),
                None => number.to_string(),
            })
        };
        for e in pattern["edges"].as_array().into_iter().flatten() {
            let kind = match &e["kind"] {
                Value::String(name) => kind_name(name),
                Value::Number(number) => number.to_string(),
                _ => "any".into(),
            };
            let line = out.line(&format!("{} -{kind}-> {}", end(&e["from"])?, end(&e["to"])?));
            out.edges.push(line);
        }
        for p in pattern["pairs"].as_array().into_iter().flatten() {
            let line = out.line(&format!("{} < {}", end(&p["low"])?, end(&p["high"])?));
            out.pairs.push(line);
        }
        if let Some(plan) = pattern["plan"].as_array() {
            out.line("[plan]");
            for line in plan.iter().filter_map(Value::as_str) {
                out.line(line);
            }
        }
        Some(out)
    }

    /// Writes a line; answers its number.
    fn line(&mut self, line: &str) -> usize {
        self.text.push_str(line);
        self.text.push('\n');
        self.count += 1;
        self.count
    }
}

fn vertex_line(vertex: &Value) -> String {
    let name = vertex["name"].as_str().map(quote);
    let described = match (name, &vertex["kind"]) {
        (Some(name), Value::String(kind)) => format!("{name}: {}", kind_name(kind)),
        (Some(name), Value::Number(label)) => format!("vertex {name} label {label}"),
        (Some(name), _) => format!("vertex {name}"),
        (None, Value::String(kind)) => format!("vertices 1 {}", kind_name(kind)),
        (None, Value::Number(label)) => format!("vertices 1 label {label}"),
        (None, _) => "vertices 1".into(),
    };
    let end = |day: &Value| match day {
        Value::String(date) if !date.is_empty() => quote(date).into_owned(),
        Value::Number(number) => number.to_string(),
        _ => String::new(),
    };
    match &vertex["days"] {
        Value::Object(days) => {
            let [first, last] = ["first", "last"].map(|key| days.get(key).map_or_else(String::new, end));
            format!("{described} inspected {first}..{last}")
        }
        _ => described,
    }
}
