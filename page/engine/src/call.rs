//! What a call is given, and how its answer is written.

use rizhavaan_core::failure::lacking;
use rizhavaan_core::json::fault;
use rizhavaan_core::source::Text;
use rizhavaan_core::text::fault::Severity;
use rizhavaan_core::{chosen, read, Choice, Document, Failure, Options, Pattern, Reading, Source};
use serde::Serialize;
use serde_json::{json, Value};

/// A call: its arguments, the sources that were lent, and the lists that go beside the answer.
pub struct Call<'a> {
    pub args: &'a Value,
    pub sources: &'a [Source],
    pub lists: &'a mut Vec<Vec<u32>>,
}

/// Why there is no answer: a sentence, and the place of the text that is to blame, if one is.
pub struct No {
    words: String,
    fault: Value,
}

pub type Answer = Result<String, No>;

impl No {
    pub fn because(words: impl Into<String>) -> No {
        No { words: words.into(), fault: Value::Null }
    }

    pub fn of(texts: &[Text], failure: &Failure) -> No {
        let place = match failure {
            Failure::At(at) => fault(texts, at),
            _ => Value::Null,
        };
        No { words: words(failure), fault: place }
    }

    pub fn to_json(&self) -> String {
        json!({ "words": self.words, "fault": self.fault }).to_string()
    }

    /// As it stands in an answer: a fault, or a reason alone.
    pub fn error(self) -> Value {
        match self.fault {
            Value::Null => json!({ "reason": self.words }),
            fault => fault,
        }
    }
}

/// A failure in words that fit a page, where there is no command line.
fn words(failure: &Failure) -> String {
    match failure {
        Failure::Memory { scratch, list, counted, memory } => format!(
            "{}. Ask for less: name kinds or days, or take mirror images once",
            lacking(*scratch, *list, *counted, *memory)
        ),
        other => other.to_string(),
    }
}

/// Bytes that a run may take where nothing is said, and the most: a buffer has at most half of the module's 4 GB.
const MEMORY: usize = 2_000_000_000;
const MOST_MEMORY: u64 = i32::MAX as u64;

impl Call<'_> {
    pub fn flag(&self, name: &str) -> bool {
        self.args[name].as_bool().unwrap_or(false)
    }

    pub fn options(&self, count_only: bool) -> Result<Options, No> {
        let plan = match self.args["plan"].as_str() {
            None | Some("best") => Choice::Best,
            Some("given") => Choice::Given,
            Some("picked") => Choice::Picked,
            Some("drawn") => Choice::Drawn,
            Some("cheapest") => Choice::Cheapest,
            Some(other) => return Err(No::because(format!("there is no plan '{other}'"))),
        };
        let memory = self.args["memory"].as_u64().map_or(MEMORY, |bytes| bytes.min(MOST_MEMORY) as usize);
        Ok(Options { plan, once: self.flag("once"), memory, count_only })
    }

    /// The titles of an argument; none for all.
    pub fn titles(&self, name: &str) -> Vec<String> {
        let all = self.args[name].as_array().map_or(&[][..], |titles| titles);
        all.iter().filter_map(|title| title.as_str().map(str::to_string)).collect()
    }

    /// Reads the sources; where there is a document, adds what is said of it, and else answers the faults alone.
    pub fn with_document(&self, add: impl FnOnce(&mut Object, &Reading, &Document) -> Result<(), No>) -> Answer {
        let reading = read(self.sources);
        let mut answer = Object::faults(&reading);
        if let Some(document) = &reading.document {
            add(&mut answer, &reading, document)?;
        }
        Ok(answer.end())
    }

    /// The pattern that is asked for, or the first.
    pub fn pattern<'d>(&self, document: &'d Document, reading: &Reading) -> Result<&'d Pattern, No> {
        let title: Vec<String> = self.args["pattern"].as_str().map(str::to_string).into_iter().collect();
        let patterns = reading.or_no(chosen(document, &title))?;
        Ok(patterns[0])
    }
}

/// A failure of what was read, with its place.
pub trait OrNo {
    fn or_no<T>(&self, result: Result<T, Failure>) -> Result<T, No>;
}

impl OrNo for Reading<'_> {
    fn or_no<T>(&self, result: Result<T, Failure>) -> Result<T, No> {
        result.map_err(|failure| No::of(&self.texts, &failure))
    }
}

/// A JSON object that is written field by field, so that a long one stands in memory once.
pub struct Object(String);

impl Object {
    pub fn new() -> Object {
        Object("{".into())
    }

    /// The faults of what was read.
    pub fn faults(reading: &Reading) -> Object {
        let of = |severity: Severity| -> Vec<Value> {
            let some = reading.faults.faults.iter().filter(|f| f.severity == severity);
            some.map(|f| fault(&reading.texts, f)).collect()
        };
        let mut object = Object::new();
        object.put("errors", &of(Severity::Error));
        object.put("errorCount", &reading.faults.errors);
        object.put("warnings", &of(Severity::Warning));
        object
    }

    pub fn put(&mut self, key: &str, value: &impl Serialize) {
        // What is written here has no maps by other keys than text, so that writing it does not fail.
        let json = serde_json::to_string(value).unwrap_or_else(|_| "null".into());
        self.json(key, &json);
    }

    /// Adds what is JSON already.
    pub fn json(&mut self, key: &str, json: &str) {
        if self.0.len() > 1 {
            self.0.push(',');
        }
        self.0.push_str(&Value::from(key).to_string());
        self.0.push(':');
        self.0.push_str(json);
    }

    pub fn end(mut self) -> String {
        self.0.push('}');
        self.0
    }
}
