//! The packed files that the engine reads, written and read bit by bit.

pub mod bits;
pub mod change;
pub mod edge;
pub mod graph;
pub mod pair;
pub mod plan;
pub mod query;
pub mod rules;
