//! Measures picked plans beside drawn ones and the best, and fits the picker's time model.
//! `bench/picker/run` says how to call it.
mod fit;
mod measure;
mod record;
mod report;

use picker_bench::graphs::{Graph, Shape};
use picker_bench::random::Random;

/// Whether all of it is to be tried on small graphs: `SMALL` is set.
fn small() -> bool {
    std::env::var_os("SMALL").is_some()
}

/// The graph of a name: a synthetic one, or a packed file.
fn graph(name: &str) -> Vec<u8> {
    let shape = match name {
        "rig" => Shape::Rig,
        "slings" => Shape::Slings,
        "power" => Shape::PowerLaw(1.3, 1, 8.0),
        "hubs" => Shape::PowerLaw(1.8, 3, 8.0),
        path => {
            let file = std::fs::read(path).unwrap_or_else(|error| panic!("{path}: {error}"));
            return if small() { Graph::of_file("", &file).part(6_000).file() } else { file };
        }
    };
    shape.graph(if small() { 4_000 } else { 60_000 }).file()
}

fn main() {
    let arguments: Vec<String> = std::env::args().skip(1).collect();
    let words: Vec<&str> = arguments.iter().map(String::as_str).collect();
    let number = |text: &str| text.parse::<u64>().unwrap_or_else(|_| panic!("{text} is no number"));
    match words[..] {
        ["record", name, seed, count, least, most, path] => {
            let mut bench = record::Bench::new(&graph(name));
            let sizes = number(least) as usize..=number(most) as usize;
            let seconds = std::env::var("SECONDS_EACH").map_or(600, |text| number(&text));
            let (mut random, most) = (Random::new(number(seed)), 1e9 * seconds as f64);
            let all = bench.record(&mut random, number(count) as usize, sizes, most);
            if bench.given_up > 0 {
                eprintln!("{name}: {} patterns were given up, since no plan of theirs came to its end", bench.given_up);
            }
            std::fs::write(path, record::to_text(&bench, &all)).expect("the record is written");
        }
        ["judge", name, path, ref table @ ..] => {
            let mut bench = record::Bench::new(&graph(name));
            let statistics_time = bench.statistics_time;
            let text = std::fs::read_to_string(path).unwrap_or_else(|error| panic!("{path}: {error}"));
            let all = record::from_text(&mut bench, &text);
            bench.statistics_time = statistics_time;
            let found: Vec<_> = all.iter().filter_map(|one| measure::measured(&mut bench, one)).collect();
            if let [table] = table {
                std::fs::write(table, report::table(&found)).expect("the table is written");
            }
            print!("{}", report::percentiles(name, &bench, &found));
        }
        ["digest", picks] => println!("{:x}", picker_bench::digest::digest(number(picks) as usize)),
        ["fit", seed, count, ref names @ ..] => fit::run(names, number(seed), number(count) as usize, graph),
        _ => {
            eprintln!("record GRAPH SEED PATTERNS LEAST MOST FILE | judge GRAPH FILE [TABLE] | fit SEED PATTERNS GRAPH ..");
            std::process::exit(2);
        }
    }
}
