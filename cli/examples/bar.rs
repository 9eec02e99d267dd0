//! Measures the program beside the engine alone, on the benchmark's rig: `bench/program` runs it.
//!
//! The bar for a text is 4 times the time of Load and run together plus 60 ms, and for tables twice that. Processor time counts,
//! so that what else the machine does matters little; it is the mean of many rounds, each of which measures all in turn.

#[path = "../src/engine.rs"]
mod engine;
#[allow(dead_code)]
#[path = "../../bench/engine/src/graphs.rs"]
mod graphs;

use std::fmt::Write;
use std::fs;
use std::path::Path;
use std::process::{Command, Stdio};
use std::time::Duration;

use engine::Library;
use graphs::{rig_label, Shape};
use rizhavaan_core::engine::{run_growing, store_words, Engine, First};
use rizhavaan_core::{read, Source};

const ROUNDS: usize = 25;
const KINDS: [&str; 5] = ["", "top", "bottom", "motor", "link"];
const PATTERN: &str =
    "[query chain]\nbottom: bottom\nmotor: motor\nlink: link\nbottom -hangs-> motor\nmotor -link-> link\n";

fn label(label: u8) -> String {
    match label {
        rig_label::TOP => "top".into(),
        rig_label::BOTTOM => "bottom".into(),
        rig_label::POST => "post".into(),
        rig_label::BRACE => "brace".into(),
        rig_label::HANGS => "hangs".into(),
        rig_label::LINK => "link".into(),
        other => format!("cable {other}"),
    }
}

/// Writes the rig as a text and as tables; answers what it is.
fn files(folder: &Path) -> String {
    let graph = Shape::Rig.graph(130_000);
    let name = |v: u16| format!("{}-{v:05}", KINDS[usize::from(graph.labels[usize::from(v)])]);
    let mut text = String::from("[graph]\n");
    let (mut items, mut connections) = (String::from("name,kind,day\r\n"), String::from("from,kind,to\r\n"));
    for (v, &kind) in graph.labels.iter().enumerate() {
        let (name, kind, month) = (name(v as u16), KINDS[usize::from(kind)], 1 + v % 9);
        let _ = writeln!(text, "{name}: {kind} day 2026-0{month}-15");
        let _ = write!(items, "{name},{kind},2026-0{month}-15\r\n");
    }
    for &(source, kind, target) in &graph.edges {
        let kind = label(kind);
        let arrow = if kind.contains(' ') { format!("-\"{kind}\"->") } else { format!("-{kind}->") };
        let _ = writeln!(text, "{} {arrow} {}", name(source), name(target));
        let _ = write!(connections, "{},{kind},{}\r\n", name(source), name(target));
    }
    fs::write(folder.join("rig.txt"), text + PATTERN).unwrap();
    fs::write(folder.join("items.csv"), items).unwrap();
    fs::write(folder.join("connections.csv"), connections).unwrap();
    fs::write(folder.join("chain.txt"), PATTERN).unwrap();
    graph.name
}

/// Load, draw plan and run, and the number of rows.
fn alone(graph: &[u8], words: usize, query: &[u8]) -> (Duration, u64) {
    let start = own_time();
    let mut store = vec![0; words];
    Library.load(graph, &mut store).unwrap();
    let mut plan = vec![0; 6];
    let length = Library.draw_plan(&store, query, &mut plan).unwrap();
    let ran = run_growing(&Library, &store, query, &plan[..length as usize], 3, 1 << 30, First::default()).unwrap();
    (own_time() - start, ran.answer.rows)
}

fn find(program: &str, folder: &Path, files: &[&str]) -> Duration {
    let start = childrens_time();
    let mut command = Command::new(program);
    command.current_dir(folder).arg("find").args(files).stdout(Stdio::null()).stderr(Stdio::null());
    assert!(command.status().unwrap().success());
    childrens_time() - start
}

/// The processor time of this thread.
fn own_time() -> Duration {
    let text = fs::read_to_string("/proc/thread-self/schedstat").unwrap();
    Duration::from_nanos(text.split(' ').next().unwrap().parse().unwrap())
}

/// The processor time of the processes that were started and have ended, in hundredths of a second.
fn childrens_time() -> Duration {
    let text = fs::read_to_string("/proc/self/stat").unwrap();
    let fields: Vec<&str> = text.rsplit(')').next().unwrap().split_whitespace().collect();
    let ticks: u64 = fields[13].parse::<u64>().unwrap() + fields[14].parse::<u64>().unwrap();
    Duration::from_millis(10 * ticks)
}

fn main() {
    let program = std::env::args().nth(1).expect("the program's path");
    let program = fs::canonicalize(program).unwrap();
    let folder = std::env::temp_dir().join(format!("rizhavaan-bar-{}", std::process::id()));
    fs::create_dir_all(&folder).unwrap();
    let name = files(&folder);
    let sources = [Source::new("rig.txt", fs::read(folder.join("rig.txt")).unwrap())];
    let document = read(&sources).document.unwrap();
    let hang = &document.hang.as_ref().unwrap().graph;
    let words = store_words(hang.vertices.len(), hang.edges.len());
    let (graph, query) = (hang.to_bytes(), document.patterns[0].query.to_bytes());
    let [mut engine, mut text, mut tables] = [Duration::ZERO; 3];
    let mut rows = 0;
    for _ in 0..ROUNDS {
        let (time, count) = alone(&graph, words, &query);
        (engine, rows) = (engine + time, count);
        text += find(program.to_str().unwrap(), &folder, &["rig.txt"]);
        tables += find(program.to_str().unwrap(), &folder, &["items.csv", "connections.csv", "chain.txt"]);
    }
    fs::remove_dir_all(&folder).unwrap();
    let ms = |d: Duration| d.as_secs_f64() * 1_000.0 / ROUNDS as f64;
    let bar = 4.0 * ms(engine) + 60.0;
    let of = |time: Duration, bar: f64| format!("{:.1} | {bar:.1} | {:.2}", ms(time), ms(time) / bar);
    println!("On the benchmark's graph ({name}), a pattern with {rows} rows; processor time in milliseconds, the mean of {ROUNDS} rounds.\n");
    println!("| work | ms | bar | of the bar |\n|---|---:|---:|---:|");
    println!("| Load, draw plan and run | {:.1} | | |", ms(engine));
    println!("| `find`, a text: 4 times that plus 60 ms | {} |", of(text, bar));
    println!("| `find`, tables: twice that bar | {} |", of(tables, 2.0 * bar));
}
