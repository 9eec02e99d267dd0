//! Picks, held against the record.
use crate::record::{least_of, timed, Bench, Recorded};
use picker_bench::picker::query::{Operator, Query};
use picker_bench::picker::{pick, unpack, Picked, MAX_WORDS};

/// What a pattern gave; times in nanoseconds.
pub struct Measured<'r> {
    pub recorded: &'r Recorded,
    pub picked: Picked,
    pub plan: Vec<Operator>,
    pub pick_time: f64,
    /// Times of whole runs, the least of some. A drawn plan, or the best, that was too long to run has
    /// none.
    pub picked_time: f64,
    pub drawn_time: Option<f64>,
    pub best_time: f64,
    pub best: Vec<Operator>,
    /// Drawing a plan, which begins with a store check.
    pub draw_time: f64,
    /// The run of the least cost, of patterns whose orderings were run, and what all of these take without
    /// a store check: the way to that plan.
    pub cheapest_time: Option<f64>,
    pub all_time: f64,
    /// What is thought of the best.
    pub best_thought: f64,
}

impl Measured<'_> {
    pub fn query(&self) -> &Query {
        &self.recorded.query
    }
}

pub fn measured<'r>(bench: &mut Bench, recorded: &'r Recorded) -> Option<Measured<'r>> {
    let file = &recorded.file;
    let picked = pick(&bench.words, &bench.statistics, file, MAX_WORDS)?;
    let pick_time = least_of(5, || timed(|| pick(&bench.words, &bench.statistics, file, MAX_WORDS)));
    let plan = unpack(&picked.plan)?;
    let time_of =
        |plan: &[Operator]| recorded.timed.iter().find(|timed| timed.plan == plan).map(|timed| timed.time);
    let picked_time = match time_of(&plan) {
        Some(time) => time,
        // A picked plan that takes too long or needs too much counts, as the worst there is.
        None => match bench.fit(recorded, &plan, &picked) {
            Some(fitted) => least_of(5, || bench.engine.time(file, &fitted)),
            None => f64::INFINITY,
        },
    };
    let best = recorded.timed.iter().min_by(|a, b| a.time.total_cmp(&b.time))?;
    let store = &bench.engine.store;
    let draw_time = least_of(3, || timed(|| store.draw_plan(file)));
    let many = recorded.timed.len() > 1;
    let cheapest = recorded.timed.iter().min_by_key(|timed| timed.cost).filter(|_| many);
    let all_time = recorded.timed.iter().map(|timed| (timed.time - recorded.check_time).max(0.0)).sum();
    let best_thought = bench.estimate(recorded, &best.plan).time;
    Some(Measured {
        recorded,
        pick_time,
        picked_time,
        drawn_time: time_of(&recorded.drawn),
        best_time: best.time.min(picked_time),
        best: best.plan.clone(),
        draw_time,
        cheapest_time: cheapest.map(|timed| timed.time),
        all_time,
        best_thought,
        plan,
        picked,
    })
}
