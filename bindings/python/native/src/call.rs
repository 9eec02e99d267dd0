//! What a question says, and how it is answered.

use std::any::Any;
use std::sync::Arc;

use library::Refusal;
use rizhavaan_core::failure::lacking;
use rizhavaan_core::json::fault;
use rizhavaan_core::text::fault::{Fault, Severity};
use rizhavaan_core::{Choice, Failure, Options, Reading};
use serde_json::{json, Value};

use crate::memory::{half_of_free, parse};
use crate::thing::Thing;

/// A question: its JSON, and the bytes that were lent with it.
pub struct Call<'a> {
    pub asked: &'a Value,
    pub lent: &'a [&'a [u8]],
}

/// An answer, and the thing that came of it.
pub struct Made {
    pub json: String,
    pub thing: Option<Arc<Thing>>,
}

impl From<Value> for Made {
    fn from(json: Value) -> Made {
        Made { json: json.to_string(), thing: None }
    }
}

impl Made {
    pub fn thing(json: Value, thing: Thing) -> Made {
        Made { json: json.to_string(), thing: Some(Arc::new(thing)) }
    }
}

/// Why there is no answer, as JSON: which error it is, and what is said of it.
pub struct No(Value);

impl No {
    pub fn to_json(&self) -> String {
        self.0.to_string()
    }

    /// What was given means nothing.
    pub fn input(sentence: impl Into<String>) -> No {
        No(json!({ "error": "input", "sentence": sentence.into() }))
    }

    /// A fault of the caller's code, or of this.
    pub fn internal(sentence: impl Into<String>) -> No {
        No(json!({ "error": "internal", "sentence": sentence.into() }))
    }

    pub fn panic(panic: &(dyn Any + Send)) -> No {
        let said = panic.downcast_ref::<String>().map(String::as_str).or_else(|| panic.downcast_ref::<&str>().copied());
        No::internal(said.unwrap_or("a panic without words"))
    }

    /// The faults of a text.
    fn faults(faults: Vec<Value>, count: usize) -> No {
        No(json!({ "error": "input", "sentence": Value::Null, "faults": faults, "faultCount": count }))
    }

    /// A failure that has no place in a text.
    pub fn of(failure: &Failure) -> No {
        No::at(None, failure)
    }

    fn at(reading: Option<&Reading>, failure: &Failure) -> No {
        let at = match (failure, reading) {
            (Failure::At(at), Some(reading)) => vec![located(reading, at)],
            _ => Vec::new(),
        };
        if let Some(refusal) = failure.refusal().and_then(|refusal| Refusal::from_number(refusal.0)) {
            return No(json!({
                "error": "refused",
                "number": refusal.number(),
                "name": format!("{refusal:?}"),
                "sentence": failure.to_string(),
                "faults": at,
            }));
        }
        match failure {
            Failure::At(_) if !at.is_empty() => No::faults(at, 1),
            Failure::At(_) | Failure::Usage(_) => No::input(failure.to_string()),
            Failure::Check(_) => No(json!({ "error": "check", "sentence": failure.to_string() })),
            Failure::Memory { scratch, list, counted, memory } => No(json!({ "error": "memory", "sentence": format!(
                "{}. Give it more with memory=, count instead of listing, or ask for less: name kinds or days, take \
                 mirror images once=True, or try another plan=",
                lacking(*scratch, *list, *counted, *memory),
            ) })),
            Failure::Refused { .. } => No::internal(failure.to_string()),
        }
    }
}

impl From<Failure> for No {
    fn from(failure: Failure) -> No {
        No::of(&failure)
    }
}

/// A fault as JSON, with the number that it is refused with.
fn located(reading: &Reading, of: &Fault) -> Value {
    let mut json = fault(&reading.texts, of);
    json["refusal"] = of.refusal.into();
    json
}

/// The faults of what was read.
pub trait Said {
    /// Nothing where there is no error; else all errors.
    fn errors(&self) -> Result<(), No>;
    fn warnings(&self) -> Vec<Value>;
    fn or_no<T>(&self, result: Result<T, Failure>) -> Result<T, No>;
}

impl Said for Reading<'_> {
    fn errors(&self) -> Result<(), No> {
        if self.document.is_some() {
            return Ok(());
        }
        let errors = self.faults.faults.iter().filter(|f| f.severity == Severity::Error);
        Err(No::faults(errors.map(|f| located(self, f)).collect(), self.faults.errors))
    }

    fn warnings(&self) -> Vec<Value> {
        let warnings = self.faults.faults.iter().filter(|f| f.severity == Severity::Warning);
        warnings.map(|f| located(self, f)).collect()
    }

    fn or_no<T>(&self, result: Result<T, Failure>) -> Result<T, No> {
        result.map_err(|failure| No::at(Some(self), &failure))
    }
}

impl<'a> Call<'a> {
    pub fn text(&self, name: &str) -> Result<&'a str, No> {
        self.asked[name].as_str().ok_or_else(|| No::internal(format!("the question has no text '{name}'")))
    }

    pub fn number(&self, name: &str) -> Result<usize, No> {
        let number = self.asked[name].as_u64();
        number.map(|n| n as usize).ok_or_else(|| No::internal(format!("the question has no number '{name}'")))
    }

    pub fn flag(&self, name: &str) -> bool {
        self.asked[name].as_bool().unwrap_or(false)
    }

    /// The texts of a list.
    pub fn texts(&self, name: &str) -> Vec<String> {
        let list = self.asked[name].as_array().into_iter().flatten();
        list.filter_map(Value::as_str).map(str::to_string).collect()
    }

    /// Bytes that were lent, as words.
    pub fn words(&self, i: usize) -> Result<Vec<u32>, No> {
        let bytes = self.lent.get(i).ok_or_else(|| No::internal("too little is lent"))?;
        if bytes.len() % 4 != 0 {
            return Err(No::internal("what is lent are no words"));
        }
        let word = |bytes: &[u8]| u32::from_ne_bytes([bytes[0], bytes[1], bytes[2], bytes[3]]);
        Ok(bytes.chunks_exact(4).map(word).collect())
    }

    pub fn options(&self, count_only: bool) -> Result<Options, No> {
        let plan = match self.asked["plan"].as_str() {
            None | Some("best") => Choice::Best,
            Some("given") => Choice::Given,
            Some("picked") => Choice::Picked,
            Some("drawn") => Choice::Drawn,
            Some("cheapest") => Choice::Cheapest,
            Some(other) => {
                return Err(No::input(format!("there is no plan '{other}': best, given, picked, drawn or cheapest")))
            }
        };
        // No more than there is: where memory ends, so does the process.
        let free = 2 * half_of_free();
        let memory = match &self.asked["memory"] {
            Value::Null => free / 2,
            Value::String(size) => parse(size).map_err(|reason| No::input(format!("memory {size:?}: {reason}")))?,
            other => other.as_u64().ok_or_else(|| No::input(format!("memory {other} is no number of bytes")))? as usize,
        };
        Ok(Options { plan, once: self.flag("once"), memory: memory.min(free), count_only })
    }
}
