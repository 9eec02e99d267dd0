//! What the tests share: a text of one file, read and packed.
#![allow(dead_code)]

use rizhavaan_core::packing::Packed;
use rizhavaan_core::text::fault::{Fault, Severity};
use rizhavaan_core::{read, Source};

/// What is said about a line of a text. Lines count from 1.
#[derive(Debug, PartialEq, Eq)]
pub struct Note {
    pub line: usize,
    pub reason: String,
}

impl std::fmt::Display for Note {
    fn fmt(&self, f: &mut std::fmt::Formatter) -> std::fmt::Result {
        write!(f, "{}: {}", self.line, self.reason)
    }
}

/// The line and reason that a text is refused with.
pub fn refused(text: &str) -> String {
    parse(text.as_bytes()).expect_err(text).to_string()
}

/// A text that was read, packed with its only pattern, and the first warning.
#[derive(Debug)]
pub struct Parsed {
    pub hang: Packed,
    pub warning: Option<Note>,
}

/// Reads a text, or gives the first fault of it.
pub fn parse(bytes: &[u8]) -> Result<Parsed, Note> {
    let sources = [Source::new("hang.txt", bytes)];
    let reading = read(&sources);
    let note = |fault: &Fault| {
        let at = fault.place.locate(&reading.texts);
        Note { line: at.line, reason: fault.reason.clone() }
    };
    let Some(document) = &reading.document else {
        let mut errors = reading.faults.faults.iter().filter(|f| f.severity == Severity::Error);
        return Err(note(errors.next().expect("there is an error where there is no document")));
    };
    let pattern = document.patterns.first();
    let refused = document.changes_fault.as_ref();
    let refused = refused.or_else(|| pattern.and_then(|p| p.fault.as_ref().or(p.plan_fault.as_ref())));
    let warning = refused.or_else(|| reading.faults.faults.first()).map(note);
    Ok(Parsed { hang: Packed::of(document, pattern), warning })
}
