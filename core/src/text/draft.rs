//! What a text says before its names are resolved.

use crate::day::Day;
use crate::document::{Document, Expect, Notes};
use crate::kinds::{Kinds, Written};
use crate::names::Names;
use crate::near::nearest;
use crate::source::Text;
use crate::text::fault::{Fault, Faults, Place};
use crate::text::words::Word;

/// Where a word is near to no name, and there are no more names than this, they are listed.
const FEW_NAMES: usize = 8;

/// A word and the text that it stands in.
#[derive(Clone, Copy, Debug)]
pub struct At {
    pub text: u32,
    pub word: Word,
}

impl At {
    pub fn place(&self) -> Place {
        Place { text: self.text, start: self.word.start, end: self.word.end }
    }
}

/// An item as it was written.
#[derive(Clone, Copy, Debug)]
pub struct DraftItem {
    pub kind: Option<Written>,
    pub day: Day,
}

/// A connection as it was written.
#[derive(Clone, Copy, Debug)]
pub struct DraftEdge {
    pub text: u32,
    pub source: End,
    pub kind: Written,
    pub target: End,
    /// The whole of it.
    pub start: u32,
    pub end: u32,
}

/// An end of a connection.
#[derive(Clone, Copy, Debug)]
pub enum End {
    /// A word that is yet to be resolved.
    Word(Word),
    /// An item that was found, from a table.
    Item(u32),
}

/// A line of a section that is resolved as a whole, by its words.
#[derive(Clone, Debug)]
pub struct Line {
    pub words: Vec<Word>,
}

/// A `[query]`, `[plan]` or `[changes]` with its lines.
#[derive(Clone, Debug)]
pub struct Block {
    pub text: u32,
    pub head: Place,
    pub name: Option<String>,
    pub sentence: Option<String>,
    pub lines: Vec<Line>,
}

impl Block {
    pub fn at(&self, word: Word) -> At {
        At { text: self.text, word }
    }

    pub fn place(&self, line: &Line) -> Place {
        let start = line.words.first().map_or(self.head.start, |w| w.start);
        let end = line.words.last().map_or(self.head.end, |w| w.end);
        Place { text: self.text, start, end }
    }
}

/// All that was read, with the faults so far.
pub struct Draft<'t> {
    pub texts: &'t [Text<'t>],
    pub faults: Faults,
    pub item_kinds: Kinds,
    pub connection_kinds: Kinds,
    /// Where `[graph]` stands.
    pub graph_head: Option<Place>,
    pub from_tables: bool,
    /// The texts are read beside a hang that was read before.
    pub is_beside: bool,
    pub items: Vec<DraftItem>,
    pub names: Names,
    pub numbered_days: Vec<u32>,
    /// Names that are written in digits alone, with their places.
    pub digit_names: Vec<(u32, Place)>,
    pub notes: Notes,
    pub edges: Vec<DraftEdge>,
    pub queries: Vec<Block>,
    pub plans: Vec<Block>,
    pub changes: Option<Block>,
}

impl<'t> Draft<'t> {
    pub fn new(texts: &'t [Text<'t>], faults: Faults) -> Draft<'t> {
        Draft {
            texts,
            faults,
            item_kinds: Kinds::default(),
            connection_kinds: Kinds::default(),
            graph_head: None,
            from_tables: false,
            is_beside: false,
            items: Vec::new(),
            names: Names::default(),
            numbered_days: Vec::new(),
            digit_names: Vec::new(),
            notes: Notes::default(),
            edges: Vec::new(),
            queries: Vec::new(),
            plans: Vec::new(),
            changes: None,
        }
    }

    pub fn source(&self, text: u32) -> &'t str {
        self.texts[text as usize].text()
    }

    pub fn error(&mut self, place: Place, reason: impl Into<String>) {
        self.faults.push(Fault::error(place, reason));
    }

    pub fn warn(&mut self, place: Place, reason: impl Into<String>) {
        self.faults.push(Fault::warning(place, reason));
    }

    /// An error about a word that is not among some names.
    pub fn unknown<'n>(
        &mut self,
        place: Place,
        reason: String,
        word: &str,
        names: impl Iterator<Item = &'n str> + Clone,
    ) {
        let near = if self.faults.is_short() { nearest(word, names.clone()) } else { None };
        let fault = Fault::error(place, reason);
        let few: Vec<String> = names.take(FEW_NAMES + 1).map(|name| format!("'{name}'")).collect();
        self.faults.push(match near {
            Some(near) => fault.help(format!("did you mean '{near}'?")),
            None if few.is_empty() || few.len() > FEW_NAMES => fault,
            None if few.len() == 1 => fault.help(format!("there is only {}", few[0])),
            None => fault.help(format!("write one of {}", few.join(", "))),
        });
    }

    /// The line of a place, as other lines speak of it.
    pub fn line_of(&self, place: Place, from: u32) -> String {
        let located = place.locate(self.texts);
        if place.text == from {
            format!("line {}", located.line)
        } else {
            format!("{}:{}", located.file, located.line)
        }
    }

    pub fn finish(mut self) -> (Document, Faults) {
        let mut document = Document::default();
        self.deal_kinds();
        document.hang = self.resolve_hang();
        document.item_kinds = std::mem::take(&mut self.item_kinds);
        document.connection_kinds = std::mem::take(&mut self.connection_kinds);
        document.patterns = self.resolve_patterns(&document);
        self.resolve_changes(&mut document);
        (document, self.faults)
    }
}

/// What `expect` asks for: the words after it.
pub fn expect(words: &[&str]) -> Option<Expect> {
    let number = |word: &str| -> Option<u64> {
        let digits = !word.is_empty() && word.bytes().all(|b| b.is_ascii_digit());
        digits.then(|| word.parse().ok()).flatten()
    };
    match *words {
        ["none"] => Some(Expect::Exactly(0)),
        [n] => number(n).map(Expect::Exactly),
        ["exactly", n] => number(n).map(Expect::Exactly),
        ["at", "least", n] => number(n).map(Expect::AtLeast),
        ["at", "most", n] => number(n).map(Expect::AtMost),
        _ => None,
    }
}
