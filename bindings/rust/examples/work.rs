//! Shows where the work of a run went: a line for each operator of the plan, with its rows and its cost as bars. The longest bar
//! is the operator to change first.
//!
//!     cargo run --release --example work -- ../../examples/bowtie-bushy-join
//!
//! The folder has the packed files of a hang, `g.bin`, `q.bin` and `p.bin`; `rizhavaan pack` writes them. Without `p.bin` a plan is drawn.
mod folder;

use folder::{ended, Folder};
use rizhavaan::{Buffers, Cache, Matches, Store};
use std::error::Error;
use std::process::ExitCode;

const WIDTH: u64 = 24;

/// A bar for a number beside the largest of its column: none for 0, one mark at least for any other.
fn bar(number: u64, largest: u64) -> String {
    let marks = (number * WIDTH).div_ceil(largest.max(1));
    "#".repeat(marks as usize)
}

fn print(matches: &Matches) {
    println!("{} matches, cost {}\n", matches.len(), matches.cost);
    let most_rows = matches.work().map(|work| work.rows).max().unwrap_or(0);
    let most_cost = matches.work().map(|work| work.cost).max().unwrap_or(0);
    let width = WIDTH as usize;
    println!("{:<16} {:>9} {:width$} {:>9}", "operator", "rows", "", "cost");
    for work in matches.work() {
        let (rows, cost) = (bar(work.rows, most_rows), bar(work.cost, most_cost));
        println!(
            "{}",
            format!("{:<16} {:>9} {rows:width$} {:>9} {cost}", work.operator, work.rows, work.cost).trim_end()
        );
    }
}

fn show() -> Result<(), Box<dyn Error>> {
    let folder = Folder::named("work FOLDER")?;
    let (graph, query, plan) = (folder.read("g.bin")?, folder.read("q.bin")?, folder.read_if_there("p.bin")?);
    let store = Store::load(&graph)?;
    let mut buffers = Buffers::new();
    match plan {
        Some(plan) => print(&store.run_growing(&query, &plan, Cache::On, &mut buffers)?),
        None => print(&store.run_drawn(&query, Cache::On, &mut buffers)?),
    }
    Ok(())
}

fn main() -> ExitCode {
    ended(show())
}
