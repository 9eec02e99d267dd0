//! The fit of the time model: the works of many runs beside their times, by least squares of the relative
//! errors, no part below 0.
use crate::record::Check;
use picker_bench::engine::Engine;
use picker_bench::exact::work;
use picker_bench::patterns::{orderings, packed, pattern};
use picker_bench::picker::query::{Operator, Query};
use picker_bench::picker::store::Store as Parts;
use picker_bench::picker::time::{Part, Work, ALL, PARTS};
use picker_bench::picker::{estimate, pack, Statistics};
use picker_bench::random::Random;
use rizhavaan::Store;

/// Rows of an operator at most, and nanoseconds besides the store check at least: shorter runs are noise.
const MOST_ROWS: usize = 400_000;
const LEAST_TIME: f64 = 1e6;
/// Nanoseconds: plans that take longer by the estimate are passed by.
const LONG: f64 = 2e8;
/// Plans of a pattern at most.
const PLANS: usize = 5;

/// A run: its work, and what it took in nanoseconds.
struct Run {
    work: Work,
    time: f64,
}

/// Two orderings, of connected sets that cover the query, and their join.
fn random_join(query: &Query, random: &mut Random) -> Option<[Vec<Operator>; 2]> {
    for _ in 0..50 {
        let [(one, build), (other, probe)] = [(); 2].map(|()| random_part(query, random));
        let (left, right) = (one & !other, other & !one);
        if one & other != 0
            && left != 0
            && right != 0
            && one | other == query.all()
            && !query.joined(left, right)
        {
            return Some([build, probe]);
        }
    }
    None
}

/// An ordering of some vertices.
fn random_part(query: &Query, random: &mut Random) -> (u32, Vec<Operator>) {
    let i = random.below(query.edges.len());
    let (mut set, mut plan) = (query.edges[i].ends(), vec![Operator::Scan(i)]);
    for _ in 0..random.below(query.vertices() - 1) {
        let next: Vec<usize> = query.next(set).collect();
        if !next.is_empty() {
            let v = random.one_of(&next);
            plan.push(Operator::Extend(v));
            set |= 1 << v;
        }
    }
    (set, plan)
}

/// The work of a plan, but for the rows that a join gives.
fn work_of(store: &Parts, query: &Query, sides: &[Vec<Operator>]) -> Option<Work> {
    let mut sum = Work::default();
    for (part, side) in [Part::Build, Part::Probe].iter().zip(sides) {
        let (side, rows) = work(store, query, side, MOST_ROWS)?;
        sum.add(&side, 1.0);
        if sides.len() == 2 {
            sum.put(*part, *rows.last()? as f64);
            sum.0[Part::List as usize] = 0.0;
        }
    }
    Some(sum)
}

fn runs_of(name: &str, file: &[u8], random: &mut Random, count: usize, runs: &mut Vec<Run>) {
    // On small graphs no run is long.
    let least_time = if crate::small() { 0.0 } else { LEAST_TIME };
    let store = Store::load(file).expect("an accepted graph");
    let words = store.words().to_vec();
    let parts = Parts::of(&words).expect("a store");
    let statistics = Statistics::of(&words).expect("a store");
    let mut engine = Engine::new(store, 1 << 24);
    let check = Check::new(&mut engine);
    let (mut patterns, before) = (0, runs.len());
    for _ in 0..20 * count {
        let n = 3 + random.below(3);
        let query = match pattern(&parts, n, random) {
            Some(query) if patterns < count => query,
            _ => continue,
        };
        let mut plans: Vec<Vec<Vec<Operator>>> = Vec::new();
        let all = orderings(&query);
        (0..PLANS - 2).for_each(|_| plans.push(vec![all[random.below(all.len())].clone()]));
        (0..2).for_each(|_| plans.extend(random_join(&query, random).map(|sides| sides.to_vec())));
        plans.dedup();
        let file = packed(&query);
        let edges: Vec<u32> = query.edges.iter().map(|edge| edge.ends()).collect();
        let mut used = false;
        for sides in plans {
            let mut work = match work_of(&parts, &query, &sides) {
                Some(work) => work,
                None => continue,
            };
            let join = if sides.len() == 2 { &[Operator::Join][..] } else { &[] };
            let plan = [&sides.concat()[..], join].concat();
            if estimate(&words, &statistics, &file, &pack(&plan)).map_or(true, |thought| thought.time > LONG) {
                continue;
            }
            let fitted = match engine.fit(&file, &edges, &plan, 4_096, 4_096) {
                Some(fitted) => fitted,
                None => continue,
            };
            if sides.len() == 2 {
                work.put(Part::Joined, fitted.rows as f64);
                work.put(Part::Word, (fitted.rows * query.vertices()) as f64);
                work.put(Part::List, (fitted.rows * query.vertices()) as f64);
            }
            let (mut time, mut checked) = (f64::MAX, f64::MAX);
            for _ in 0..5 {
                time = time.min(engine.time(&file, &fitted));
                checked = checked.min(check.time(&mut engine));
            }
            let time = time - checked;
            if time >= least_time {
                runs.push(Run { work, time });
                used = true;
            }
        }
        patterns += usize::from(used);
    }
    eprintln!("{name}: {patterns} patterns, {} runs", runs.len() - before);
}

/// Errors beyond this share count by their size and not by its square: a run that the model knows little
/// of, or a slow moment, does not bend it.
const LARGE_ERROR: f64 = 0.25;

/// The coefficients with the least sum of squared relative errors, none below 0: the squares are weighed
/// anew until they settle.
fn solved(runs: &[Run]) -> [f64; PARTS] {
    let scaled: Vec<[f64; PARTS]> =
        runs.iter().map(|run| run.work.0.map(|amount| amount / run.time)).collect();
    let mut coefficients = [0.0; PARTS];
    for _ in 0..40 {
        let (mut products, mut sums) = ([[0.0; PARTS]; PARTS], [0.0; PARTS]);
        for row in &scaled {
            let error = row.iter().zip(&coefficients).map(|(amount, each)| amount * each).sum::<f64>() - 1.0;
            let weight = if error.abs() <= LARGE_ERROR { 1.0 } else { LARGE_ERROR / error.abs() };
            for i in 0..PARTS {
                sums[i] += weight * row[i];
                (0..PARTS).for_each(|j| products[i][j] += weight * row[i] * row[j]);
            }
        }
        coefficients = least(&products, &sums, coefficients);
    }
    coefficients
}

/// The numbers, none below 0, for which x·products·x / 2 − x·sums is least: one after the other, until
/// nothing moves.
fn least(products: &[[f64; PARTS]; PARTS], sums: &[f64; PARTS], start: [f64; PARTS]) -> [f64; PARTS] {
    let mut x = start;
    for _ in 0..if crate::small() { 100 } else { 20_000 } {
        for i in (0..PARTS).filter(|&i| products[i][i] > 0.0) {
            let slope: f64 =
                products[i].iter().zip(&x).map(|(product, x)| product * x).sum::<f64>() - sums[i];
            x[i] = f64::max(0.0, x[i] - slope / products[i][i]);
        }
    }
    x
}

/// Measures, solves, says how well it fits, and prints the coefficients as the module's file.
pub fn run(names: &[&str], seed: u64, count: usize, graph: fn(&str) -> Vec<u8>) {
    let mut random = Random::new(seed);
    let mut runs = Vec::new();
    for name in names {
        runs_of(name, &graph(name), &mut random, count, &mut runs);
    }
    if let Some(path) = std::env::var_os("FIT_RUNS") {
        let line =
            |run: &Run| format!("{}\t{}\n", run.time, run.work.0.map(|amount| amount.to_string()).join("\t"));
        std::fs::write(path, runs.iter().map(line).collect::<String>()).expect("the runs are written");
    }
    let coefficients = solved(&runs);
    let model =
        |run: &Run| run.work.0.iter().zip(&coefficients).map(|(amount, each)| amount * each).sum::<f64>();
    let mut ratios: Vec<f64> = runs.iter().map(|run| model(run) / run.time).collect();
    ratios.sort_by(f64::total_cmp);
    let at = |percent: usize| ratios[(ratios.len() - 1) * percent / 100];
    eprintln!(
        "model / time over {} runs: 5 % {:.2}, 25 % {:.2}, 50 % {:.2}, 75 % {:.2}, 95 % {:.2}",
        runs.len(),
        at(5),
        at(25),
        at(50),
        at(75),
        at(95)
    );
    for (part, each) in ALL.iter().zip(&coefficients) {
        let with = runs.iter().filter(|run| run.work.0[*part as usize] > 0.0).count();
        eprintln!("{part:?}: {each:.3} ns, in {with} runs");
    }
    let numbers: Vec<String> = coefficients.iter().map(|each| format!("{each:.3}")).collect();
    println!(
        "/// What each part takes, in nanoseconds, in the order of `ALL`. `bench/picker/run fit` measures the engine\n\
         /// and writes this file.\n\
         const NANOSECONDS: [f64; PARTS] = [\n    {},\n    {},\n];",
        numbers[..PARTS / 2].join(", "),
        numbers[PARTS / 2..].join(", ")
    );
}
