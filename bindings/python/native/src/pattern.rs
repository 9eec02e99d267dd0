//! Patterns without their hang.

use rizhavaan_core::json::pattern::PatternJson;
use rizhavaan_core::json::written::Written;
use rizhavaan_core::text::alone::words_as_kinds;
use rizhavaan_core::{chosen, read as read_sources, write as write_text, Document, Pattern, Reading, Source};
use serde_json::{json, Value};

use crate::call::{Call, Made, No, Said};

/// The pattern of a text, the one of a name where it has several.
pub fn read(call: &Call) -> Result<Made, No> {
    let name = call.asked["name"].as_str();
    pattern(call.text("text")?, name, call.asked["title"].as_str().unwrap_or("pattern"))
}

/// A pattern that is described in JSON.
pub fn write(call: &Call) -> Result<Made, No> {
    let written = Written::of(&call.asked["pattern"]).ok_or_else(|| No::internal("there is no pattern to write"))?;
    pattern(&written.text, None, "pattern")
}

fn pattern(text: &str, name: Option<&str>, title: &str) -> Result<Made, No> {
    let sources = [Source::new("kinds", words_as_kinds(text)), Source::new(title, text)];
    let reading = read_sources(&sources);
    reading.errors()?;
    let document = reading.document.as_ref().ok_or_else(|| No::internal("there is no document"))?;
    let names: Vec<String> = name.map(str::to_string).into_iter().collect();
    let patterns = reading.or_no(chosen(document, &names))?;
    match patterns[..] {
        [one] => Ok(described(&reading, document, one, 1).into()),
        _ => {
            let titles: Vec<&str> = patterns.iter().map(|pattern| pattern.title()).collect();
            Err(No::input(format!("the text has several patterns; choose one by its name: {}", titles.join(", "))))
        }
    }
}

/// A pattern as JSON, with its own text.
pub fn described(reading: &Reading, document: &Document, pattern: &Pattern, before: u32) -> Value {
    let mut text = String::new();
    write_text::pattern(&mut text, document, pattern);
    let mut json =
        serde_json::to_value(PatternJson { document, pattern, texts: &reading.texts, before }).unwrap_or_default();
    json["text"] = text.into();
    json["names"] = json!(pattern.vertices());
    json["warnings"] = json!(reading.warnings());
    json
}
