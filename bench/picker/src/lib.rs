//! The plan picker of the core, included by its path, and what its tests and its benchmark share.
#[path = "../../engine/src/clock.rs"]
mod clock;
#[path = "../../engine/src/graphs.rs"]
pub mod graphs;
#[path = "../../../core/src/picker/mod.rs"]
pub mod picker;

pub mod digest;
pub mod engine;
pub mod exact;
pub mod limit;
pub mod patterns;
pub mod random;
