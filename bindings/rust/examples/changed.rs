//! Runs a pattern before and after changes: loads g.bin of a folder, applies c.bin, and prints the matches of q.bin in both, by the plan
//! p.bin if there is one, else by a drawn one.
//!
//!     cargo run --release --example changed -- ../../examples/truss-swap
mod folder;

use folder::{ended, Folder};
use rizhavaan::{Buffers, Cache, Refusal, Store};
use std::error::Error;
use std::process::ExitCode;

fn print(when: &str, store: &Store, query: &[u8], plan: Option<&[u8]>) -> Result<(), Refusal> {
    let mut buffers = Buffers::new();
    let matches = match plan {
        Some(plan) => store.run_growing(query, plan, Cache::On, &mut buffers)?,
        None => store.run_drawn(query, Cache::On, &mut buffers)?,
    };
    println!("{when} edges {} matches {} cost {}", store.edges(), matches.len(), matches.cost);
    for row in matches.rows() {
        let row: Vec<String> = row.iter().map(u32::to_string).collect();
        println!("{}", row.join(" "));
    }
    Ok(())
}

fn show() -> Result<(), Box<dyn Error>> {
    let folder = Folder::named("changed FOLDER")?;
    let (query, plan) = (folder.read("q.bin")?, folder.read_if_there("p.bin")?);

    let store = Store::load(&folder.read("g.bin")?)?;
    let changed = store.changed(&folder.read("c.bin")?)?;
    print("before", &store, &query, plan.as_deref())?;
    print("after", &changed, &query, plan.as_deref())?;
    Ok(())
}

fn main() -> ExitCode {
    ended(show())
}
