//! What a caller holds: a hang, a list, or words alone.

use std::sync::Arc;

use rizhavaan_core::{Document, Failure, Found, Kept, Loaded};

use crate::call::No;

pub enum Thing {
    Hang(Hang),
    List(List),
    Words(Vec<u32>),
}

/// A hang that was loaded, with its patterns and changes.
pub struct Hang {
    pub document: Document,
    pub kept: Arc<Kept>,
}

/// The places of a pattern, and their hang.
pub struct List {
    /// A thing that is a hang.
    hang: Arc<Thing>,
    pub found: Found,
}

impl Hang {
    pub fn loaded(&self) -> Result<Loaded<'_>, Failure> {
        Loaded::again(&self.document, &self.kept)
    }
}

impl List {
    pub fn new(hang: &Arc<Thing>, found: Found) -> List {
        List { hang: hang.clone(), found }
    }

    pub fn hang(&self) -> Result<&Hang, No> {
        self.hang.hang()
    }
}

impl Thing {
    /// The words that a caller may look at.
    pub fn words(&self) -> &[u32] {
        match self {
            Thing::Hang(_) => &[],
            Thing::List(list) => &list.found.rows,
            Thing::Words(words) => words,
        }
    }

    pub fn hang(&self) -> Result<&Hang, No> {
        match self {
            Thing::Hang(hang) => Ok(hang),
            _ => Err(No::internal("the thing is no hang")),
        }
    }

    pub fn list(&self) -> Result<&List, No> {
        match self {
            Thing::List(list) => Ok(list),
            _ => Err(No::internal("the thing is no list")),
        }
    }
}
