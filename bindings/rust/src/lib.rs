//! Subgraph matching by a proved engine: load a packed graph or change a loaded one, check a plan or draw one, run it, print its rows.
//!
//! The engine is written in Rattle and proved to meet its contracts: after an accepted run the list holds every match of the
//! query once, and nothing else. A match gives different query vertices different data vertices, each with the label and with one of
//! the inspection days that its query vertex asks for, and of each pair of the query the first a lower number than the second. This crate
//! is a thin, safe wrapper of its static library. It is not proved: all that it does is to hand slices over as pointers and lengths, and to
//! turn the answer into a [`Result`].
//!
//! ```
//! use rizhavaan::{Buffers, Cache, Store};
//!
//! // Four vertices without label or day; edges of label 1: 0→1, 0→2, 1→2, 1→3, 2→3.
//! let graph = [
//!     0x00, 0x04, 0x00, 0x00, 0x50, 0x00, 0x00, 0x00, 0x00, 0x00, 0x00, 0x00, 0x00, 0x00, 0x00, 0x00, 0x00, 0x00, 0x00, 0x00,
//!     0x00, 0x00, 0x00, 0x10, 0x00, 0x10, 0x00, 0x00, 0x10, 0x00, 0x20, 0x00, 0x10, 0x10, 0x00, 0x20, 0x00, 0x10, 0x10, 0x00,
//!     0x30, 0x00, 0x20, 0x10, 0x00, 0x30,
//! ];
//! // The triangle 0→1, 0→2, 1→2, of items of any label and day, without pairs, and the plan 'scan edge 0, extend by vertex 2'.
//! let query = [
//!     0x31, 0x80, 0x00, 0x00, 0x00, 0x7f, 0xff, 0x80, 0x00, 0x00, 0x00, 0x7f, 0xff, 0x80, 0x00, 0x00, 0x00, 0x7f, 0xff, 0x82,
//!     0x02, 0x10, 0x09, 0x40, 0x20,
//! ];
//! let plan = [0x10, 0x05, 0x00];
//!
//! let store = Store::load(&graph)?;
//! let mut buffers = Buffers::new();
//! let matches = store.run_growing(&query, &plan, Cache::On, &mut buffers)?;
//! assert_eq!(matches.rows().collect::<Vec<_>>(), [[0, 1, 2], [1, 2, 3]]);
//! assert_eq!(matches.cost, 13);
//!
//! // Where the work went: the scan found 5 rows, and the extend did all the looking up.
//! for work in matches.work() {
//!     println!("{}: {} rows, cost {}", work.operator, work.rows, work.cost);
//! }
//!
//! // The matches on pages of text: the first line says page 1 of 1, a match follows on a line of its own.
//! let page = matches.pages().next().unwrap();
//! assert!(page.starts_with(b"       1       1  "));
//! assert!(page[81..].starts_with(b"       0       1       2  "));
//!
//! // Without a plan: one is drawn, here the same.
//! assert_eq!(store.draw_plan(&query)?, plan);
//! assert_eq!(store.run_drawn(&query, Cache::On, &mut buffers)?.len(), 2);
//! // All plans of one scan and extends, with their costs; the first is the same again.
//! let costs: Vec<u64> = store.orderings(&query)?.map(|order| order.cost).collect();
//! assert_eq!(costs, [13, 18, 13]);
//! assert_eq!(store.orderings(&query)?.next().map(|order| order.plan()), Some(plan.to_vec()));
//!
//! // One change: the edge 1→2 is taken away, and with it both triangles. The old store stays as it is.
//! let changed = store.changed(&[0x00, 0x00, 0x10, 0x00, 0x08, 0x08, 0x00, 0x10])?;
//! assert_eq!((store.edges(), changed.edges()), (5, 4));
//! assert_eq!(changed.run_growing(&query, &plan, Cache::On, &mut buffers)?.len(), 0);
//! # Ok::<(), rizhavaan::Refusal>(())
//! ```
//!
//! # Buffers
//!
//! A [`Store`] owns the words of a graph. A run needs scratch, a list for its rows, and a record for each operator. [`run`] and
//! [`Store::run`] borrow them from the caller and refuse a run for which they are too short; [`Store::run_growing`] sets aside what the
//! plan's bounds tell, makes a list that the rows fit, and has records for the longest plan. [`Store::count`] counts them and lists none. [`find`] and
//! [`Store::find`] draw the plan that they run, which [`Store::run_drawn`] does in buffers that grow: the store is checked once and not twice.
//! The scratch is zero after every run, refused ones too. It need not hold the rows: but for a join's build side, a run needs little of it,
//! whatever it lists. With room for them it finds them once and not twice.

#![deny(unsafe_code)]
#![warn(missing_docs)]

#[cfg(not(all(target_arch = "x86_64", target_os = "linux")))]
compile_error!("the static library is for x86-64 Linux");

mod engine;
mod growing;
mod operator;
mod orderings;
mod refusal;
mod sheet;
mod store;
pub mod sys;

pub use engine::{
    apply_changes_into, bounds, check_plan, count, draw_plan_into, find, load_into, orderings_into, page_into, run,
    Bounds, Cache, Count, Found, Loaded, Run, MAX_DRAWN_BYTES, MAX_OPERATORS, MAX_ORDERING_VERTICES,
    MAX_ORDERING_WORDS, MAX_WORDS, PAGE_BYTES,
};
pub use growing::Buffers;
pub use operator::{operators, Operator, Work};
pub use orderings::{PlanOrder, PlanOrders};
pub use refusal::Refusal;
pub use sheet::Pages;
pub use store::{Matches, Store};
pub use sys::Record;
