//! What graphs and queries share.

use std::fmt;
use std::ops::RangeInclusive;

/// A labelled edge; a query edge may have [`ANY_LABEL`]. Graph and query files order their edges
/// differently.
#[derive(Clone, Copy, Debug, PartialEq, Eq, Hash)]
pub struct Edge {
    pub source: u32,
    pub label: u32,
    pub target: u32,
}

impl fmt::Display for Edge {
    fn fmt(&self, f: &mut fmt::Formatter) -> fmt::Result {
        let Edge { source, target, .. } = self;
        match self.label {
            ANY_LABEL => write!(f, "{source} -{ANY}-> {target}"),
            label => write!(f, "{source} -{label}-> {target}"),
        }
    }
}

pub const VERTEX_LABELS: RangeInclusive<u32> = 0..=65_535;
pub const EDGE_LABELS: RangeInclusive<u32> = 1..=255;

/// The label of a query edge that fits every label, and its word in the text form.
pub const ANY_LABEL: u32 = 0;
pub const ANY: &str = "any";

/// How many vertices, edges and pairs there may be, whether an edge may join a vertex to itself,
/// and whether it may have [`ANY_LABEL`].
pub struct Limits {
    pub vertices: RangeInclusive<usize>,
    pub edges: RangeInclusive<usize>,
    pub pairs: RangeInclusive<usize>,
    pub loops: bool,
    pub any_label: bool,
}

/// Why a packed file is malformed, with the number that the engine refuses it with.
#[derive(Debug, PartialEq, Eq)]
pub struct FileFault {
    pub refusal: u8,
    pub reason: String,
}

impl FileFault {
    pub fn new(refusal: u8, reason: impl Into<String>) -> Self {
        FileFault { refusal, reason: reason.into() }
    }
}

impl fmt::Display for FileFault {
    fn fmt(&self, f: &mut fmt::Formatter) -> fmt::Result {
        write!(f, "{} (refusal {})", self.reason, self.refusal)
    }
}
