//! Patterns whose orderings are all run: what each took. The picker is held against this record, which
//! knows nothing of it but which orderings were passed by as hopeless.
use picker_bench::engine::{now, Engine, Fitted};
use picker_bench::limit::ends_within;
use picker_bench::patterns::{orderings, packed, pattern, ANY};
use picker_bench::picker::query::{Edge, Filter, Operator, Query};
use picker_bench::picker::store::Store as Parts;
use picker_bench::picker::{estimate, pack, pick, unpack, Picked, Statistics, MAX_WORDS};
use picker_bench::random::Random;
use std::ops::RangeInclusive;
use rizhavaan::Store;

/// Buffers have at most so many words: plans that need more are not run.
const MOST_WORDS: usize = 1 << 27;
/// Of larger patterns only the drawn plan is run.
const ALL_ORDERINGS: usize = 5;
/// Seconds of processor time after which a plan is given up.
const MOST_SECONDS: u64 = 4;
/// Nanoseconds: patterns whose picked plan takes longer by the estimate are passed by.
const LONG: f64 = 2e8;
/// Orderings are passed by that take so many times the best time by the estimate, and so many nanoseconds.
const HOPELESS: f64 = 5.0;
const NOT_SHORT: f64 = 1e7;
/// Plans are run again that take at most so much longer than the best: one slow minute is not taken for a
/// slow plan.
const CHEAP: f64 = 5e6;

/// A plan that was run, its least time in nanoseconds, and its cost.
pub struct Timed {
    pub plan: Vec<Operator>,
    pub time: f64,
    pub cost: u64,
}

/// A pattern, and what its orderings took.
pub struct Recorded {
    pub query: Query,
    pub file: Vec<u8>,
    pub drawn: Vec<Operator>,
    pub timed: Vec<Timed>,
    pub skipped: usize,
    /// Rows of the whole.
    pub rows: usize,
    /// The least time of a store check between these runs.
    pub check_time: f64,
}

/// A graph, its engine, and what every run and every pick over it begins with.
pub struct Bench {
    pub engine: Engine,
    check: Check,
    pub words: Vec<u32>,
    pub statistics: Statistics,
    /// Nanoseconds of the store check alone, and of making the statistics.
    pub check_time: f64,
    pub statistics_time: f64,
    /// Patterns of which no plan was run to its end.
    pub given_up: usize,
}

pub fn least_of(times: usize, mut work: impl FnMut() -> f64) -> f64 {
    (0..times).map(|_| work()).fold(f64::MAX, f64::min)
}

/// The processor time of a work.
pub fn timed<T>(work: impl FnOnce() -> T) -> f64 {
    let start = now();
    std::hint::black_box(work());
    now() - start
}

/// A run that lists nothing, since no vertex has the label that its query asks for: it takes the time of
/// the store check.
pub struct Check {
    file: Vec<u8>,
    fitted: Fitted,
}

impl Check {
    pub fn new(engine: &mut Engine) -> Check {
        let nothing = Filter { label: 65_535, ..ANY };
        let edge = Edge { from: 0, to: 1, label: 1 };
        let query = Query::new(vec![nothing, ANY], vec![edge], Vec::new()).expect("a query");
        let file = packed(&query);
        let fitted = engine.fit(&file, &[3], &[Operator::Scan(0)], 4_096, 4_096).expect("it fits");
        Check { file, fitted }
    }

    pub fn time(&self, engine: &mut Engine) -> f64 {
        engine.time(&self.file, &self.fitted)
    }
}

impl Bench {
    pub fn new(graph: &[u8]) -> Bench {
        let store = Store::load(graph).expect("an accepted graph");
        let words = store.words().to_vec();
        let statistics = Statistics::of(&words).expect("a store");
        let statistics_time = least_of(7, || timed(|| Statistics::of(&words)));
        let mut engine = Engine::new(store, MOST_WORDS);
        let check = Check::new(&mut engine);
        let check_time = least_of(20, || check.time(&mut engine));
        Bench { engine, check, words, statistics, check_time, statistics_time, given_up: 0 }
    }

    /// Runs a plan in buffers that are long enough, which takes a few runs where it is not as thought; nothing
    /// where it takes too long or needs too much.
    pub fn fit(&mut self, recorded: &Recorded, plan: &[Operator], thought: &Picked) -> Option<Fitted> {
        let edges: Vec<u32> = recorded.query.edges.iter().map(|edge| edge.ends()).collect();
        let list = (thought.list as usize).clamp(4_096, MOST_WORDS / 4);
        let rows: f64 = thought.operators.iter().map(|estimate| estimate.rows).sum();
        let scratch = ((8.0 * rows) as usize).clamp(4_096, MOST_WORDS / 4);
        let mut fit = || self.engine.fit(&recorded.file, &edges, plan, scratch, list);
        if !ends_within(MOST_SECONDS, || drop(fit())) {
            return None;
        }
        fit()
    }

    pub fn estimate(&self, recorded: &Recorded, plan: &[Operator]) -> Picked {
        estimate(&self.words, &self.statistics, &recorded.file, &pack(plan)).expect("an accepted plan")
    }

    /// Random patterns, recorded; fewer where that takes more than so many nanoseconds of processor time.
    pub fn record(
        &mut self,
        random: &mut Random,
        count: usize,
        sizes: RangeInclusive<usize>,
        most: f64,
    ) -> Vec<Recorded> {
        let words = self.words.clone();
        let parts = Parts::of(&words).expect("a store");
        let mut all = Vec::new();
        for _ in 0..20 * count {
            if all.len() == count || now() > most {
                break;
            }
            let n = sizes.start() + random.below(sizes.end() - sizes.start() + 1);
            if let Some(query) = pattern(&parts, n, random) {
                all.extend(self.recorded(query));
            }
        }
        all
    }

    fn recorded(&mut self, query: Query) -> Option<Recorded> {
        let file = packed(&query);
        if pick(&self.words, &self.statistics, &file, MAX_WORDS)?.time > LONG {
            return None;
        }
        let drawn = unpack(&self.engine.store.draw_plan(&file).expect("a drawn plan")).expect("operators");
        let plans = if query.vertices() <= ALL_ORDERINGS { orderings(&query) } else { vec![drawn.clone()] };
        let mut recorded =
            Recorded { query, file, drawn, timed: Vec::new(), skipped: 0, rows: 0, check_time: f64::MAX };
        let thoughts: Vec<Picked> = plans.iter().map(|plan| self.estimate(&recorded, plan)).collect();
        let best = thoughts.iter().map(|thought| thought.time).fold(f64::MAX, f64::min);
        let mut fitted: Vec<(Fitted, f64, Vec<Operator>)> = Vec::new();
        for (plan, thought) in plans.into_iter().zip(&thoughts) {
            let hopeless = thought.time > (HOPELESS * best).max(NOT_SHORT) && plan != recorded.drawn;
            let run = if hopeless || thought.time > 4.0 * LONG {
                None
            } else {
                self.fit(&recorded, &plan, thought)
            };
            match run {
                Some(run) => {
                    let time = self.engine.time(&recorded.file, &run);
                    fitted.push((run, time, plan));
                }
                None => recorded.skipped += 1,
            }
        }
        if fitted.is_empty() {
            self.given_up += 1;
            return None;
        }
        recorded.rows = fitted[0].0.rows;
        for near in [2.5, 1.4, 1.4, 1.4] {
            recorded.check_time = recorded.check_time.min(self.check.time(&mut self.engine));
            let best = fitted.iter().map(|run| run.1).fold(f64::MAX, f64::min);
            for run in fitted.iter_mut().filter(|run| run.1 < near * best || run.1 < best + CHEAP) {
                run.1 = run.1.min(self.engine.time(&recorded.file, &run.0));
            }
        }
        let cost = |run: &Fitted| run.records.iter().map(|record| record.cost).sum();
        recorded.timed =
            fitted.into_iter().map(|(run, time, plan)| Timed { plan, time, cost: cost(&run) }).collect();
        Some(recorded)
    }
}

/// A record as lines: the query's bytes, then the plans with their times.
pub fn to_text(bench: &Bench, all: &[Recorded]) -> String {
    let hex = |bytes: &[u8]| bytes.iter().map(|byte| format!("{byte:02x}")).collect::<String>();
    let mut out = format!("{} {}\n", bench.check_time, bench.statistics_time);
    for one in all {
        let plans: Vec<String> =
            one.timed.iter().map(|t| format!("{}:{}:{}", hex(&pack(&t.plan)), t.time, t.cost)).collect();
        let (file, drawn) = (hex(&one.file), hex(&pack(&one.drawn)));
        out +=
            &format!("{file} {drawn} {} {} {} {}\n", one.skipped, one.rows, one.check_time, plans.join(" "));
    }
    out
}

/// The record of such lines, with the times that were measured then.
pub fn from_text(bench: &mut Bench, text: &str) -> Vec<Recorded> {
    let bytes = |hex: &str| -> Vec<u8> {
        (0..hex.len() / 2)
            .map(|i| u8::from_str_radix(&hex[2 * i..2 * i + 2], 16).expect("hexadecimal"))
            .collect()
    };
    let plan = |hex: &str| unpack(&bytes(hex)).expect("a plan");
    let mut lines = text.lines();
    let head: Vec<f64> =
        lines.next().expect("a head").split(' ').map(|n| n.parse().expect("a number")).collect();
    (bench.check_time, bench.statistics_time) = (head[0], head[1]);
    let one = |line: &str| {
        let fields: Vec<&str> = line.split(' ').collect();
        let file = bytes(fields[0]);
        let timed = fields[5..].iter().map(|field| {
            let parts: Vec<&str> = field.split(':').collect();
            let [hex, time, cost] = parts[..] else { panic!("{field}: a plan, its time and its cost") };
            Timed {
                plan: plan(hex),
                time: time.parse().expect("a number"),
                cost: cost.parse().expect("a number"),
            }
        });
        Recorded {
            query: Query::read(&file).expect("a query"),
            drawn: plan(fields[1]),
            timed: timed.collect(),
            skipped: fields[2].parse().expect("a number"),
            rows: fields[3].parse().expect("a number"),
            check_time: fields[4].parse().expect("a number"),
            file,
        }
    };
    lines.map(one).collect()
}
