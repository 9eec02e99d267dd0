//! A text that was read: kinds, a hang, patterns and changes.

use std::borrow::Cow;
use std::fmt;

use crate::kinds::Kinds;
use crate::names::Names;
use crate::packed::change::Changes;
use crate::packed::edge::{Edge, ANY, ANY_LABEL};
use crate::packed::graph::Graph;
use crate::packed::plan::{Operator, Plan};
use crate::packed::query::Query;
use crate::text::fault::{Fault, Place};

/// All that several files say together.
#[derive(Clone, Debug, Default)]
pub struct Document {
    pub item_kinds: Kinds,
    pub connection_kinds: Kinds,
    pub hang: Option<Hang>,
    pub patterns: Vec<Pattern>,
    pub changes: Option<Changes>,
    /// Why the engine will refuse the changes, if it will.
    pub changes_fault: Option<Fault>,
}

/// A rig as it hangs: items and connections.
#[derive(Clone, Debug)]
pub struct Hang {
    pub graph: Graph,
    pub names: Names,
    /// The items whose day was written as a number, ascending.
    pub numbered_days: Vec<u32>,
    pub notes: Notes,
    /// It came from tables, at least a part of it.
    pub from_tables: bool,
}

/// Further columns of a table of items: an item, a column and what stands there, by item.
#[derive(Clone, Debug, Default, PartialEq)]
pub struct Notes {
    pub columns: Vec<String>,
    pub notes: Vec<(u32, u32, String)>,
}

/// A pattern with its names.
#[derive(Clone, Debug)]
pub struct Pattern {
    pub name: Option<String>,
    /// What the comment behind its head says.
    pub sentence: Option<String>,
    pub query: Query,
    pub names: Names,
    /// The vertices whose days were written as numbers.
    pub numbered_days: Vec<u32>,
    pub plan: Option<Plan>,
    pub expect: Option<Expect>,
    pub place: Place,
    /// Why the engine will refuse the query, if it will.
    pub fault: Option<Fault>,
    /// Why the engine will refuse the plan, if it will.
    pub plan_fault: Option<Fault>,
}

/// How many places a pattern is to have.
#[derive(Clone, Copy, Debug, PartialEq, Eq)]
pub enum Expect {
    Exactly(u64),
    AtLeast(u64),
    AtMost(u64),
}

impl Expect {
    pub fn holds(self, places: u64) -> bool {
        match self {
            Expect::Exactly(n) => places == n,
            Expect::AtLeast(n) => places >= n,
            Expect::AtMost(n) => places <= n,
        }
    }
}

impl fmt::Display for Expect {
    fn fmt(&self, f: &mut fmt::Formatter) -> fmt::Result {
        match self {
            Expect::Exactly(n) => write!(f, "{n}"),
            Expect::AtLeast(n) => write!(f, "at least {n}"),
            Expect::AtMost(n) => write!(f, "at most {n}"),
        }
    }
}

/// The name of a thing, or its number.
fn name_or_number(names: &Names, number: u32) -> Cow<'_, str> {
    match names.get(number) {
        Some(name) => Cow::Borrowed(name),
        None => Cow::Owned(number.to_string()),
    }
}

impl Hang {
    pub fn item(&self, number: u32) -> Cow<'_, str> {
        name_or_number(&self.names, number)
    }

    /// The item of a name, or of a number where it has no name.
    pub fn find(&self, name: &str) -> Option<u32> {
        Hang::find_in(&self.names, name)
    }

    /// The thing of a name, or of a number where it has no name.
    pub fn find_in(names: &Names, name: &str) -> Option<u32> {
        names.find(name).or_else(|| {
            let number = name.parse().ok().filter(|n: &u32| n.to_string() == name)?;
            let is_unnamed = (number as usize) < names.len() && names.get(number).is_none();
            is_unnamed.then_some(number)
        })
    }
}

impl Pattern {
    /// Its name, or a word for the one that has none.
    pub fn title(&self) -> &str {
        self.name.as_deref().unwrap_or("query")
    }

    pub fn vertex(&self, number: u32) -> Cow<'_, str> {
        name_or_number(&self.names, number)
    }

    pub fn vertices(&self) -> Vec<String> {
        (0..self.query.vertices.len() as u32).map(|v| self.vertex(v).into_owned()).collect()
    }
}

impl Document {
    /// The name of an item kind, or its number.
    pub fn item_kind(&self, label: u32) -> Cow<'_, str> {
        self.item_kinds.name(label).map_or_else(|| Cow::Owned(format!("label {label}")), Cow::Borrowed)
    }

    /// The name of a connection kind, or its number, or the word for any.
    pub fn connection_kind(&self, label: u32) -> Cow<'_, str> {
        match self.connection_kinds.name(label) {
            _ if label == ANY_LABEL => Cow::Borrowed(ANY),
            Some(name) => Cow::Borrowed(name),
            None => Cow::Owned(label.to_string()),
        }
    }

    /// A connection of a pattern in words.
    pub fn pattern_edge(&self, pattern: &Pattern, e: &Edge) -> String {
        let kind = self.connection_kind(e.label);
        format!("{} -{kind}-> {}", pattern.vertex(e.source), pattern.vertex(e.target))
    }

    /// A connection of the hang in words.
    pub fn hang_edge(&self, hang: &Hang, e: &Edge) -> String {
        let kind = self.connection_kind(e.label);
        format!("{} -{kind}-> {}", hang.item(e.source), hang.item(e.target))
    }

    /// An operator in words.
    pub fn operator(&self, pattern: &Pattern, operator: Operator) -> String {
        match operator {
            Operator::Scan(i) => format!("scan {}", self.pattern_edge(pattern, &pattern.query.edges[i as usize])),
            Operator::Extend(v) => format!("extend {}", pattern.vertex(v)),
            Operator::Join => "join".into(),
        }
    }
}
