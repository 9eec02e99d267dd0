//! An independent judge of the engine: files read bit by bit, matches found by backtracking over a set of edges, rows in the
//! order that the rules give, and all of it slow. It shares nothing with the engine but the document that both follow.

pub mod bits;
pub mod bounds;
pub mod calls;
pub mod cases;
pub mod changes;
pub mod compare;
pub mod damaged;
pub mod drawn;
pub mod found;
pub mod graph;
pub mod hangs;
pub mod in_words;
pub mod lengths;
pub mod matcher;
pub mod orderings;
pub mod plan;
pub mod program;
pub mod query;
pub mod random;
pub mod rules;
pub mod sheet;
pub mod worked;
