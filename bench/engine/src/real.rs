//! Natural patterns over a real graph: the picked, the drawn and the cheapest plan beside the best ordering, and the databases.
use crate::cases::Case;
use crate::chart::{chart, Bar, Line};
use crate::databases::{Counted, Database, Program};
use crate::files::store_words;
use crate::measure::{seconds, turns, Rounds, Spread};
use crate::packages::Packages;
use crate::picker::{self, Statistics};
use crate::report::{database, milliseconds, thousands};
use crate::rows::{checked_needs, engine, MOST};
use crate::same::longest_list;
use rizhavaan::{Cache, Record};
use std::fmt::Write;

/// Seconds by the estimate: a plan that takes longer is not run, nor all orderings that together do.
const LONG: f64 = 4.0;
/// Orderings are passed by that take so many times the best by the estimate, and so many seconds.
const HOPELESS: f64 = 5.0;
const NOT_SHORT: f64 = 0.01;

/// The databases' columns: which, and how many workers of its own it has.
const COLUMNS: [(&str, Program, usize); 3] = [
    ("SQLite", Program::Sqlite, 0),
    ("PostgreSQL", Program::Postgres, 0),
    ("PostgreSQL, 2 workers", Program::Postgres, 2),
];

/// A way to a plan: what choosing took, and the run, in seconds; nothing where it was too long to try.
#[derive(Clone, Copy)]
struct Way {
    choosing: f64,
    run: f64,
    /// The picked plan's time over this one's, round by round.
    ratio: Spread,
}

impl Way {
    fn whole(&self) -> f64 {
        self.choosing + self.run
    }
}

pub struct Row {
    pattern: String,
    rows: usize,
    picked: Way,
    drawn: Option<Way>,
    cheapest: Option<Way>,
    best: Way,
    /// Of the picked and the best ordering.
    orders: [String; 2],
    /// How many orderings there are, and how many were passed by.
    orderings: (usize, usize),
    counted: [Option<Counted>; 3],
}

/// A plan in words.
fn order(case: &Case, plan: &[u8]) -> String {
    case.with_plan(plan).order()
}

fn least(times: usize, mut work: impl FnMut()) -> f64 {
    (0..times).map(|_| seconds(&mut work)).fold(f64::MAX, f64::min)
}

struct Runner {
    store: Vec<u32>,
    statistics: Statistics,
    /// The longest list of any vertex.
    longest: usize,
}

impl Runner {
    fn estimate(&self, query: &[u8], plan: &[u8]) -> f64 {
        picker::estimate(&self.store, &self.statistics, query, plan).map_or(0.0, |picked| picked.time * 1e-9)
    }

    fn cheapest(&self, query: &[u8], width: usize, scratch: &mut [u32]) -> Option<usize> {
        let mut words = [0; rizhavaan::MAX_ORDERING_WORDS];
        let plans = rizhavaan::orderings_into(&self.store, query, scratch, &mut words).ok()?;
        let cost = |entry: &[u32]| u64::from(entry[width - 1]) << 32 | u64::from(entry[width]);
        (0..plans).min_by_key(|&i| cost(&words[i * (width + 1)..][..width + 1]))
    }

    fn row(&self, rounds: Rounds, case: &Case) -> Row {
        let (store, query) = (&self.store[..], case.query());
        let orderings: Vec<Vec<u8>> = case.orderings().iter().map(Case::plan).collect();
        let thought: Vec<f64> = orderings.iter().map(|plan| self.estimate(&query, plan)).collect();
        let fastest = thought.iter().copied().fold(f64::MAX, f64::min);
        let mut list = vec![0; MOST];
        let mut scratch = vec![0; MOST];
        let mut records = [Record::default(); rizhavaan::MAX_OPERATORS];
        let first = thought.iter().position(|&time| time == fastest).expect("an ordering");
        let mut words = 1 << 16;
        let rows = loop {
            match rizhavaan::count(store, &query, &orderings[first], Cache::On, &mut scratch[..words]) {
                Ok(count) => break count.run.rows,
                Err(_) => words *= 4,
            }
        };
        let mut run = |plan: &[u8], words: usize| {
            let answer = engine(store, &query, plan, true, &mut scratch[..words], &mut list, &mut records);
            assert_eq!(answer.refusal, 0);
            answer.rows
        };
        // In so many words an ordering finds each row once.
        let once = case.width() * (rows + self.longest) + 64;
        let mut tried: Vec<(f64, usize)> = Vec::new();
        for (i, plan) in orderings.iter().enumerate() {
            if thought[i] <= (HOPELESS * fastest).max(NOT_SHORT) {
                let mut timed = || seconds(|| assert_eq!(run(plan, once), rows));
                tried.push((timed().min(timed()), i));
            }
        }
        tried.sort_by(|a, b| a.0.total_cmp(&b.0));
        let (_, best) = tried[0];
        let pick = || picker::pick(store, &self.statistics, &query, picker::MAX_WORDS).expect("a plan is picked");
        let picked = pick().plan;
        let mut drawn = [0; rizhavaan::MAX_DRAWN_BYTES];
        let bytes = rizhavaan::draw_plan_into(store, &query, &mut drawn).expect("a plan is drawn");
        let drawn = &drawn[..bytes];
        // Choosing, and the plans that are to be run: picked, best, drawn, cheapest.
        let mut room = vec![0; 1 << 24];
        let mut cheapest = None;
        let mut choosing = [least(5, || assert!(!pick().plan.is_empty())), 0.0, 0.0, 0.0];
        choosing[2] = least(5, || {
            let mut plan = [0; rizhavaan::MAX_DRAWN_BYTES];
            assert!(rizhavaan::draw_plan_into(store, &query, &mut plan).is_ok());
        });
        if thought.iter().sum::<f64>() < LONG {
            choosing[3] = least(2, || cheapest = self.cheapest(&query, case.width(), &mut room));
        }
        let mut plans: Vec<Option<&[u8]>> = vec![Some(&picked), Some(&orderings[best])];
        plans.push(Some(drawn).filter(|plan| self.estimate(&query, plan) < LONG));
        plans.push(cheapest.map(|i| &orderings[i][..]));
        let joins = case.with_plan(&picked).joins();
        let words = |plan: &[u8]| match joins && plan == picked {
            true => checked_needs(store, &query, plan, true).roomy,
            false => once,
        };
        let plans: Vec<Option<(&[u8], usize)>> =
            plans.iter().map(|plan| plan.map(|plan| (plan, words(plan)))).collect();
        let run = std::cell::RefCell::new(run);
        let mut versions: Vec<Box<dyn FnMut()>> = Vec::new();
        for &(plan, words) in plans.iter().flatten() {
            let run = &run;
            versions.push(Box::new(move || assert_eq!(run.borrow_mut()(plan, words), rows)));
        }
        let mut versions: Vec<&mut dyn FnMut()> = versions.iter_mut().map(|version| &mut **version as _).collect();
        let times = turns(rounds, &mut versions);
        let mut column = 0;
        let ways: Vec<Option<Way>> = (0..4)
            .map(|i| {
                plans[i]?;
                let at = column;
                column += 1;
                let run = Spread::of(times.iter().map(|round| round[at]).collect()).median;
                let ratio = Spread::of(times.iter().map(|round| round[0] / round[at]).collect());
                Some(Way { choosing: choosing[i], run, ratio })
            })
            .collect();
        Row {
            pattern: case.name.clone(),
            rows,
            picked: ways[0].expect("it was run"),
            best: ways[1].expect("it was run"),
            drawn: ways[2],
            cheapest: ways[3],
            orders: [order(case, &picked), order(case, &orderings[best])],
            orderings: (orderings.len(), orderings.len() - tried.len()),
            counted: [None, None, None],
        }
    }
}

/// Measures the patterns over a folder's graph; databases have so many seconds a query.
pub fn rows(packages: &Packages, rounds: Rounds, limit: Option<f64>, word: &str) -> Vec<Row> {
    let graph = &packages.graph;
    let mut store = vec![0; store_words(graph.labels.len(), graph.edges.len())];
    rizhavaan::load_into(&graph.file(), &mut store).expect("an accepted graph");
    let statistics = Statistics::of(&store).expect("a store");
    let longest = longest_list(&store);
    let runner = Runner { store, statistics, longest };
    let patterns: Vec<Case> = packages.patterns().into_iter().filter(|case| case.name.contains(word)).collect();
    let mut rows: Vec<Row> = Vec::new();
    for case in &patterns {
        eprintln!("  {}", case.name);
        rows.push(runner.row(rounds, case));
    }
    for program in [Program::Sqlite, Program::Postgres] {
        let (Some(limit), Some(_)) = (limit, program.version()) else { continue };
        let database = Database::new(program, graph, limit).expect("the database takes the graph");
        for (i, &(name, its, workers)) in COLUMNS.iter().enumerate().filter(|(_, column)| column.1 == program) {
            eprintln!("  {name}");
            assert!(its == program);
            for (row, case) in rows.iter_mut().zip(&patterns) {
                let counted = database.count(&case.sql(), workers).expect("the database runs");
                if let Counted::In(count, _) = counted {
                    assert_eq!(count, row.rows as u64, "the database counts the same: {}", case.name);
                }
                row.counted[i] = Some(counted);
            }
        }
    }
    rows
}

/// What choosing took beside the run, in milliseconds.
fn way(way: Option<Way>) -> String {
    way.map_or("too long".into(), |way| format!("{} + {}", milliseconds(way.choosing), milliseconds(way.run)))
}

pub fn markdown(packages: &Packages, rows: &[Row]) -> String {
    let mut text = format!("{}. Lists: {}.\n\n", packages.graph.name, packages.dates);
    text += "| pattern | rows | picked ms | drawn ms | cheapest ms | best ordering ms | picked / best |";
    COLUMNS.iter().for_each(|column| text += &format!(" {} ms |", column.0));
    text += "\n|---|---:|---:|---:|---:|---:|---:|---:|---:|---:|\n";
    for row in rows {
        let Spread { low, median, high } = row.best.ratio;
        let _ = write!(
            text,
            "| {} | {} | {} | {} | {} | {} | {median:.2} ({low:.2}–{high:.2}) |",
            row.pattern,
            thousands(row.rows as u64),
            way(Some(row.picked)),
            way(row.drawn),
            way(row.cheapest),
            milliseconds(row.best.run),
        );
        row.counted.iter().for_each(|counted| text += &format!(" {} |", database(counted, row.picked.whole())));
        text.push('\n');
    }
    text + &verdict(rows)
}

/// The bars: where a database is ahead, and by how much the engine is where it is not.
fn verdict(rows: &[Row]) -> String {
    let mut text = String::new();
    let (mut ahead, mut logarithms) = (Vec::new(), Vec::new());
    for row in rows {
        for (counted, column) in row.counted.iter().zip(COLUMNS) {
            let seconds = match counted {
                Some(Counted::In(_, seconds) | Counted::Not(seconds)) => *seconds,
                None => continue,
            };
            let engine = row.picked.whole();
            if seconds < engine {
                let by = milliseconds(engine - seconds);
                ahead.push((engine - seconds, format!("{} ({}, by {by} ms)", row.pattern, column.0)));
            }
            if seconds > 0.05 {
                logarithms.push((seconds / engine).ln());
            }
        }
    }
    ahead.sort_by(|a, b| b.0.total_cmp(&a.0));
    let names: Vec<String> = ahead.iter().map(|one| one.1.clone()).collect();
    let names = if names.is_empty() { "none".into() } else { names.join("; ") };
    let _ =
        writeln!(text, "\nA database is ahead of picking and running on: {names}. The bar: by no more than 10 ms.\n");
    if !logarithms.is_empty() {
        let mean = (logarithms.iter().sum::<f64>() / logarithms.len() as f64).exp();
        let count = logarithms.len();
        let _ = writeln!(
            text,
            "Where a database takes more than 50 ms ({count} of its counts), the engine is {mean:.0} times as fast in the \
             geometric mean, stopped ones counted as what they had. The bar: 20.\n"
        );
    }
    let mut worst: Vec<&Row> = rows.iter().collect();
    worst.sort_by(|a, b| b.best.ratio.median.total_cmp(&a.best.ratio.median));
    let name = |row: &&Row| {
        let [picked, best] = &row.orders;
        format!("{} {:.2} (picked {picked}; best {best})", row.pattern, row.best.ratio.median)
    };
    let names: Vec<String> = worst.iter().take(3).map(name).collect();
    let _ = writeln!(text, "The three picks furthest from the best ordering: {}.\n", names.join("; "));
    let (all, passed) = rows.iter().fold((0, 0), |sum, row| (sum.0 + row.orderings.0, sum.1 + row.orderings.1));
    let _ = writeln!(
        text,
        "Of {all} orderings {passed} were not run: by the estimate they take five times the best or more."
    );
    text
}

/// Time by pattern beside the databases.
pub fn picture(rows: &[Row]) -> String {
    let bar = |counted: &Option<Counted>| {
        counted.as_ref().map(|counted| match counted {
            Counted::In(_, seconds) => Bar::Of(seconds * 1e3),
            Counted::Not(seconds) => Bar::Above(seconds * 1e3),
        })
    };
    let line = |row: &Row| -> Line {
        let engine = Some(Bar::Of(row.picked.whole() * 1e3));
        (row.pattern.clone(), [engine].into_iter().chain(row.counted.iter().map(bar)).collect())
    };
    let series: Vec<&str> = ["picked and run"].into_iter().chain(COLUMNS.iter().map(|column| column.0)).collect();
    chart("Patterns over Debian's packages", "ms", &series, &rows.iter().map(line).collect::<Vec<_>>())
}
