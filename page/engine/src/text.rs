//! `pattern` and `write_pattern`: a pattern from its text, and the text of one that was drawn.

use rizhavaan_core::json::fault;
use rizhavaan_core::json::pattern::PatternJson;
use rizhavaan_core::json::written::Written;
use rizhavaan_core::text::alone::{declared, words_as_kinds};
use rizhavaan_core::text::fault::Severity;
use rizhavaan_core::{read, Source};
use serde_json::{json, Value};

use crate::call::{Answer, Call, No, Object};

pub fn pattern(call: &Call) -> Answer {
    let text = call.args["text"].as_str().ok_or_else(|| No::because("there is no text"))?;
    let mut answer = Object::new();
    add_read(&mut answer, text, &call.args["kinds"]);
    Ok(answer.end())
}

pub fn write_pattern(call: &Call) -> Answer {
    let written = Written::of(&call.args["pattern"]).ok_or_else(|| No::because("there is no such pattern to write"))?;
    let mut answer = Object::new();
    answer.put("text", &written.text);
    answer.put("lines", &json!({ "vertices": written.vertices, "edges": written.edges, "pairs": written.pairs }));
    add_read(&mut answer, &written.text, &call.args["kinds"]);
    Ok(answer.end())
}

/// Adds the pattern of a text, or its faults. Kinds are declared in a text of their own before it.
fn add_read(answer: &mut Object, text: &str, kinds: &Value) {
    let names = |list: &'static str| kinds[list].as_array().into_iter().flatten().filter_map(Value::as_str);
    let declared = if kinds.is_null() { words_as_kinds(text) } else { declared(names("items"), names("connections")) };
    let sources = [Source::new("kinds", declared), Source::new("pattern", text)];
    let reading = read(&sources);
    let own: Vec<_> = reading.faults.faults.iter().filter(|f| f.place.text == 1).collect();
    let of = |severity: Severity| -> Vec<Value> {
        own.iter().filter(|f| f.severity == severity).map(|f| fault(&reading.texts, f)).collect()
    };
    let mut errors = of(Severity::Error);
    let document = reading.document.as_ref();
    let pattern = document.and_then(|document| document.patterns.first());
    if pattern.is_none() && errors.is_empty() {
        errors.push(json!({
            "severity": "error", "file": "pattern", "line": 1, "column": 1, "length": 0,
            "source": text.lines().next().unwrap_or_default(), "reason": "there is no pattern: no [query]", "help": null,
        }));
    }
    answer.put("errorCount", &errors.len());
    answer.put("errors", &errors);
    answer.put("warnings", &of(Severity::Warning));
    let shown = document.zip(pattern);
    answer.put(
        "pattern",
        &shown.map(|(document, pattern)| PatternJson { document, pattern, texts: &reading.texts, before: 1 }),
    );
}
