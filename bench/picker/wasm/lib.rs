//! The picker compiled for WebAssembly by itself, for holding its picks to those of the native one.
#[path = "../src/digest.rs"]
mod digest;
#[path = "../../engine/src/graphs.rs"]
pub mod graphs;
#[path = "../src/patterns.rs"]
pub mod patterns;
#[path = "../../../core/src/picker/mod.rs"]
pub mod picker;
#[path = "../src/random.rs"]
pub mod random;

#[no_mangle]
pub extern "C" fn picks_digest(picks: u32) -> u64 {
    digest::digest(picks as usize)
}
