//! Text form, tables, names and checks around the proved engine, for the program and the page. It reads no file and prints
//! nothing: a shell hands over [`Source`]s and an [`Engine`], and is handed answers, or faults with their places.

pub mod arrays;
pub mod day;
pub mod diff;
pub mod document;
pub mod engine;
pub mod explain;
pub mod export;
pub mod failure;
pub mod find;
pub mod json;
pub mod kinds;
pub mod limits;
pub mod names;
pub mod names_file;
pub mod near;
pub mod orderings;
pub mod packed;
pub mod packing;
pub mod picker;
pub mod picture;
pub mod plans;
pub mod source;
pub mod sql;
pub mod summary;
pub mod symmetry;
pub mod tables;
pub mod text;
pub mod verify;
pub mod why;
pub mod write;

pub use document::{Document, Pattern};
pub use engine::Engine;
pub use failure::Failure;
pub use find::{chosen, Found, Kept, Loaded, Options};
pub use json::find_json;
pub use plans::{Choice, Origin};
pub use source::Source;
pub use text::{read, read_changes, read_patterns, Reading};
