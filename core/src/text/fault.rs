//! What is to be said about a place of a text.

use crate::source::Text;

/// A place: bytes from `start` to `end` of the text of an index.
#[derive(Clone, Copy, Debug, PartialEq, Eq, PartialOrd, Ord)]
pub struct Place {
    pub text: u32,
    pub start: u32,
    pub end: u32,
}

#[derive(Clone, Copy, Debug, PartialEq, Eq)]
pub enum Severity {
    /// The text means nothing.
    Error,
    /// It is well formed, and worth a look.
    Warning,
}

/// A fault, or a warning, at a place.
#[derive(Clone, Debug, PartialEq, Eq)]
pub struct Fault {
    pub severity: Severity,
    pub place: Place,
    pub reason: String,
    /// What to write instead, if anything is near.
    pub help: Option<String>,
    /// The number that the engine refuses it with, where it is well formed and refused all the same.
    pub refusal: Option<u8>,
}

impl Fault {
    pub fn error(place: Place, reason: impl Into<String>) -> Fault {
        Fault { severity: Severity::Error, place, reason: reason.into(), help: None, refusal: None }
    }

    pub fn warning(place: Place, reason: impl Into<String>) -> Fault {
        Fault { severity: Severity::Warning, ..Fault::error(place, reason) }
    }

    pub fn help(mut self, help: impl Into<String>) -> Fault {
        self.help = Some(help.into());
        self
    }
}

/// Faults in the order in which they were found; those past a bound are only counted.
#[derive(Clone, Debug, Default)]
pub struct Faults {
    kept: Vec<Fault>,
    errors: usize,
    dropped: usize,
}

impl Faults {
    /// How many faults are shown to a reader.
    pub const SHOWN: usize = 20;
    const KEPT: usize = 1_000;

    pub fn push(&mut self, fault: Fault) {
        self.errors += usize::from(fault.severity == Severity::Error);
        if self.kept.len() < Faults::KEPT {
            self.kept.push(fault);
        } else {
            self.dropped += usize::from(fault.severity == Severity::Error);
        }
    }

    /// A near name is worth looking for: the fault will be shown.
    pub fn is_short(&self) -> bool {
        self.kept.len() < Faults::SHOWN
    }

    pub fn errors(&self) -> usize {
        self.errors
    }

    /// The faults by text and place.
    pub fn sorted(mut self) -> Sorted {
        self.kept.sort_by_key(|f| (f.place.text, f.place.start));
        Sorted { faults: self.kept, errors: self.errors }
    }
}

/// Faults by text and place, and how many of all there were are errors.
#[derive(Clone, Debug, Default)]
pub struct Sorted {
    pub faults: Vec<Fault>,
    pub errors: usize,
}

/// A fault with its line, for a reader.
#[derive(Clone, Debug, PartialEq, Eq)]
pub struct Located<'t> {
    pub file: &'t str,
    /// From 1.
    pub line: usize,
    /// In characters, from 1.
    pub column: usize,
    /// In characters.
    pub length: usize,
    pub source: &'t str,
}

impl Place {
    pub fn locate<'t>(&self, texts: &'t [Text]) -> Located<'t> {
        let text = &texts[self.text as usize];
        let whole = text.text();
        let start = floor(whole, self.start as usize);
        let end = floor(whole, self.end as usize).max(start);
        let begin = whole[..start].rfind('\n').map_or(text.begin(), |i| i + 1).min(start);
        let stop = whole[begin..].find('\n').map_or(whole.len(), |i| begin + i);
        let source = whole[begin..stop].trim_end_matches('\r');
        Located {
            file: text.name(),
            line: 1 + whole[..begin].bytes().filter(|&b| b == b'\n').count(),
            column: 1 + whole[begin..start].chars().count(),
            length: whole[start..end.min(stop)].chars().count(),
            source,
        }
    }
}

/// The last character boundary that is not above a place.
fn floor(text: &str, at: usize) -> usize {
    let mut at = at.min(text.len());
    while !text.is_char_boundary(at) {
        at -= 1;
    }
    at
}
