//! Runs a pattern without a plan: draws one for the files g.bin and q.bin of a folder, and prints it in words and the matches.
//!
//!     cargo run --release --example drawn -- ../../examples/triangle
mod folder;

use folder::{ended, Folder};
use rizhavaan::{operators, Buffers, Cache, Store};
use std::error::Error;
use std::process::ExitCode;

fn show() -> Result<(), Box<dyn Error>> {
    let folder = Folder::named("drawn FOLDER")?;
    let store = Store::load(&folder.read("g.bin")?)?;
    let query = folder.read("q.bin")?;

    let plan = store.draw_plan(&query)?;
    let words: Vec<String> = operators(&query, &plan)?.map(|operator| operator.to_string()).collect();
    println!("plan {}", words.join(", "));

    let mut buffers = Buffers::new();
    let matches = store.run_growing(&query, &plan, Cache::On, &mut buffers)?;
    println!("matches {} cost {}", matches.len(), matches.cost);
    for row in matches.rows() {
        let row: Vec<String> = row.iter().map(u32::to_string).collect();
        println!("{}", row.join(" "));
    }
    Ok(())
}

fn main() -> ExitCode {
    ended(show())
}
