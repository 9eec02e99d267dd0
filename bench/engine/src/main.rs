//! Measures the engine beside two plain versions in safe Rust and two databases, and prints the tables as Markdown.
//!
//!     bench [--quick] [--rounds N] [--seconds S] [--database-seconds S] [--only WORD] [--case WORD] [--no-counts]
//!         [--packages FOLDER] [--pictures FOLDER]
//!
//! `--quick` takes small graphs and one round: whether all of it works. With `--packages` the natural patterns over the graph that `bench/debian-graph` made in the folder are measured too; with `--pictures` the
//! charts are written.

mod cases;
mod chart;
mod clock;
mod counts;
mod databases;
mod drawn;
mod files;
mod graphs;
mod measure;
mod memory;
mod merge;
mod operations;
mod packages;
#[allow(dead_code)]
#[path = "../../../core/src/picker/mod.rs"]
mod picker;
mod real;
mod report;
mod rows;
mod same;
mod sheets;

use measure::Rounds;
use packages::Packages;
use report::Table;
use rows::Meter;
use sheets::Sheet;
use std::path::PathBuf;

struct Options {
    rounds: Rounds,
    /// Seconds that a database has for a query; none where they are not measured.
    database: Option<f64>,
    /// Only sheets with this in their shapes.
    only: String,
    /// Only cases with this in their names.
    case: String,
    counts: bool,
    /// On small graphs, each row once.
    quick: bool,
    /// Instructions are counted, of this part of so many.
    count: Option<(usize, usize)>,
    /// The folder of the graph of packages.
    packages: Option<PathBuf>,
    /// The folder that charts are written to.
    pictures: Option<PathBuf>,
}

fn options() -> Options {
    let words: Vec<String> = std::env::args().skip(1).collect();
    let value = |name: &str| words.iter().position(|word| word == name).map(|i| words[i + 1].clone());
    let number = |name: &str, default: f64| value(name).map_or(default, |text| text.parse().expect("a number"));
    let has = |name: &str| words.iter().any(|word| word == name);
    let quick = has("--quick");
    let limit = number("--database-seconds", if quick { 2.0 } else { 5.0 });
    let part = |text: String| {
        let (part, parts) = text.split_once('/').expect("a part of parts");
        (part.parse().expect("a number"), parts.parse().expect("a number"))
    };
    Options {
        rounds: Rounds {
            least: number("--rounds", if quick { 1.0 } else { 5.0 }) as usize,
            seconds: number("--seconds", if quick { 0.0 } else { 1.5 }),
            most: 25,
        },
        database: (limit > 0.0).then_some(limit),
        only: value("--only").unwrap_or_default(),
        case: value("--case").unwrap_or_default(),
        counts: !has("--no-counts"),
        quick,
        count: value("--count").map(part),
        packages: value("--packages").map(PathBuf::from),
        pictures: value("--pictures").map(PathBuf::from),
    }
}

fn sized(mut sheet: Sheet, quick: bool) -> Sheet {
    if quick {
        sheet.shrink();
    }
    sheet
}

/// Runs every version of every row once, on the small graphs.
fn count(part: usize, parts: usize, quick: bool) {
    let sheets: Vec<Sheet> =
        sheets::sheets().into_iter().chain(sheets::growth()).map(|sheet| sized(sheet, quick)).collect();
    let counted = |sheet: &&Sheet| sheet.small.is_some() && (!quick || sheet.shape == graphs::Shape::Slings);
    for sheet in sheets.iter().filter(counted).skip(part).step_by(parts) {
        sheet.table(Meter::Counted, sheet.small.expect("it has a small graph"), None);
    }
}

fn main() {
    let options = options();
    if let Some((part, parts)) = options.count {
        return count(part, parts, options.quick);
    }
    let start = std::time::Instant::now();
    let counts = match options.counts {
        true => counts::counts(2, options.quick).expect("valgrind counts"),
        false => counts::Counts::new(),
    };
    let measured = |sheet: &Sheet| sheet.table(Meter::Timed(options.rounds), sheet.edges, options.database);
    let mut tables: Vec<Table> = Vec::new();
    println!("## Tables\n");
    for mut sheet in sheets::sheets().into_iter().filter(|sheet| sheet.shape.name().contains(&options.only)) {
        sheet.keep(&options.case);
        let table = measured(&sized(sheet, options.quick));
        println!("{}", table.markdown(&counts));
        tables.push(table);
    }
    let picture = |name: &str, svg: String| {
        if let Some(folder) = &options.pictures {
            std::fs::write(folder.join(name), svg).expect("the picture is written");
        }
    };
    if let Some(folder) = &options.packages {
        eprintln!("packages");
        let packages = Packages::read(folder, options.quick).expect("bench/debian-graph made the graph");
        let rows = real::rows(&packages, options.rounds, options.database, &options.case);
        println!("## A real graph\n\n{}", include_str!("real.md"));
        println!("{}", real::markdown(&packages, &rows));
        picture("patterns.svg", real::picture(&rows));
    }
    println!("## Drawn plans\n\n{}", include_str!("drawn.md"));
    println!("{}", report::drawn(&tables));
    if options.only.is_empty() && options.case.is_empty() {
        let sheets: Vec<Sheet> = sheets::growth().into_iter().map(|sheet| sized(sheet, options.quick)).collect();
        let sizes: Vec<usize> = sheets.iter().map(|sheet| sheet.edges).collect();
        let grown: Vec<Table> = sheets.iter().map(measured).collect();
        println!("## Growth\n\n{}", include_str!("growth.md"));
        println!("{}", report::growth(&sizes, &grown, &counts));
        println!("The smallest of these graphs, with the databases' counts:\n\n{}", grown[0].markdown(&counts));
        tables.extend(grown);
    }
    println!("## Memory\n\n{}", include_str!("memory.md"));
    println!("{}", memory::markdown(&tables));
    picture("memory.svg", memory::picture(&tables));
    println!("## Other operations\n\n{}", include_str!("operations.md"));
    println!("{}", report::operations(&tables, &counts));
    println!("## Rows above a bar\n\n{}", report::misses(&tables, &counts));
    println!("## The machine\n\n{}", report::machine(options.rounds.least, start.elapsed().as_secs_f64() / 60.0));
}
