//! The text form, from files to a document.

pub mod alone;
pub mod fault;
pub mod words;

mod cells;
mod draft;
mod hang;
mod kinds;
mod lines;
mod pattern;
mod plan;
mod section;
mod table;

use crate::document::Document;
use crate::source::{Source, Text};
pub use draft::expect as draft_expect;
use draft::Draft;
use fault::{Faults, Sorted};
pub use lines::kind_fault;

/// What was read, and what is to be said of it. There is no document where there is an error.
pub struct Reading<'s> {
    pub texts: Vec<Text<'s>>,
    pub document: Option<Document>,
    pub faults: Sorted,
}

/// Reads several files as one text.
pub fn read(sources: &[Source]) -> Reading<'_> {
    let mut faults = Faults::default();
    let texts = Text::decode(sources, &mut faults);
    let mut draft = Draft::new(&texts, faults);
    section::read(&mut draft);
    let (document, faults) = draft.finish();
    let document = if faults.errors() == 0 { Some(document) } else { None };
    Reading { texts, document, faults: faults.sorted() }
}

/// Reads patterns and plans beside a document that was read before: its kinds are theirs, and they have no hang of
/// their own. The document of the answer has the patterns alone.
pub fn read_patterns<'s>(document: &Document, sources: &'s [Source]) -> Reading<'s> {
    read_beside(sources, |draft| Document { patterns: draft.resolve_patterns(document), ..Document::default() })
}

/// Reads changes of a document that was read before, which then has them; the document of the answer has nothing.
pub fn read_changes<'s>(document: &mut Document, sources: &'s [Source]) -> Reading<'s> {
    read_beside(sources, |draft| {
        draft.resolve_changes(document);
        Document::default()
    })
}

fn read_beside<'s>(sources: &'s [Source], resolve: impl FnOnce(&mut Draft) -> Document) -> Reading<'s> {
    let mut faults = Faults::default();
    let texts = Text::decode(sources, &mut faults);
    let mut draft = Draft { is_beside: true, ..Draft::new(&texts, faults) };
    section::read(&mut draft);
    if let Some(head) = draft.graph_head {
        draft.error(head, "there is a hang already");
    }
    let document = resolve(&mut draft);
    let faults = draft.faults;
    let document = if faults.errors() == 0 { Some(document) } else { None };
    Reading { texts, document, faults: faults.sorted() }
}
