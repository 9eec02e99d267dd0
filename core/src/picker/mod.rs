//! The plan picker. Any two accepted plans list the same rows, so whoever picks one cannot change a list,
//! only its time and its order: this code is not proved, and what it picks goes through the engine's Check
//! plan like anyone's.
//!
//! - `statistics`, `tables`: made once a store: how many edges each label has, and sample edges by the labels
//!   of their ends.
//! - `samples`, `scans`, `extension`, `ends`: for a query, how many rows each set of covered vertices has,
//!   from sample rows that are really extended.
//! - `time`, `coefficients`: what the works of a run take, fitted to the engine; `cache`: which rows the
//!   cache spares; `stage`: both, operator by operator, and the need.
//! - `effort`: how large the samples are; `search`: every ordering of one scan and extends; `joins`: plans
//!   with a join, where they are clearly faster.
//! - `drawn`: the engine's own rule, against which a pick is held.
//! - `need`: bounds of the scratch, so that no plan is picked that may not fit while another does.
//!
//! The same store and query give the same plan on every machine: no clock, a fixed seed, and of the numbers
//! with fractions only sums, products, quotients and comparisons. Nothing is read of edges whose labels the
//! query does not name.

mod cache;
pub mod drawn;
mod effort;
mod ends;
pub mod extension;
mod joins;
pub mod need;
pub mod numbers;
pub mod query;
mod samples;
mod scans;
mod search;
mod stage;
mod statistics;
pub mod store;
mod tables;
pub mod time;

pub use query::{pack, unpack, Operator};
pub use statistics::Statistics;

use effort::{Effort, UNSEEN_SIZE};
use need::Bounds;
use query::Query;
use samples::Samples;
use search::{Found, Search, SHORT};
use store::Store;
use time::{time_of, Part};

/// The most words that a run may be lent as scratch.
pub const MAX_WORDS: u64 = 1 << 30;

/// Of plans within a tenth of the best time, the one with the least need is taken, where needs below this
/// many words count alike.
const NEED_SLACK: f64 = 1.1;
const NEED_FLOOR: f64 = 65_536.0;

/// What is thought of an operator of a plan before it runs.
#[derive(Clone, Copy, Debug, PartialEq)]
pub struct Estimate {
    pub operator: Operator,
    /// Rows of its result.
    pub rows: f64,
    /// Nanoseconds that it takes by itself.
    pub time: f64,
}

/// From so many vertices on a plan is taken only where the drawn one takes more than so many times as long, by
/// the samples of the search and by others.
const LARGE: usize = 6;
const LARGE_MARGIN: f64 = 8.0;
/// And where by those others it comes to no fewer rows of the whole than the drawn one, but for so many times.
const ROWS_MARGIN: f64 = 2.0;
/// Rows of such other samples.
const FRESH_SIZE: usize = 128;

/// A picked plan.
#[derive(Clone, Debug, PartialEq)]
pub struct Picked {
    /// The packed plan file.
    pub plan: Vec<u8>,
    pub operators: Vec<Estimate>,
    /// Nanoseconds of the whole, without the checks that every run begins with.
    pub time: f64,
    /// Scratch words that the run is thought to need, by the sums of request 10.
    pub need: f64,
    /// Words to lend at first: twice what is thought, within what can be needed.
    pub scratch: u64,
    pub list: u64,
}

/// The plan of a query file over a store that Load wrote, of which the statistics were made, where at most
/// so many words of scratch may be lent. Nothing where Read query refuses the query for its length,
/// vertices, edges or connection.
pub fn pick(words: &[u32], statistics: &Statistics, query: &[u8], lent: u64) -> Option<Picked> {
    let store = Store::of(words)?;
    let query = Query::read(query)?;
    let mut bounds = Bounds::new(store, statistics, &query);
    let drawn = drawn::drawn(&query, statistics);
    let margin = if query.vertices() >= LARGE { LARGE_MARGIN } else { 1.0 };
    let (mut effort, mut before) = (Effort::first_round(), Vec::new());
    loop {
        let mut samples = Samples::new(store, statistics, &query, effort.size);
        let mut search = Search::new(&mut samples, effort.limits());
        let best = search.best_ordering(&drawn, margin, &before)?;
        let unseen = search.samples.has_unseen(&best.plan);
        if effort.next_round(search.samples.effort, best.stage.time, unseen) {
            before = best.plan;
            continue;
        }
        let ordering = within_need(&mut search, best, &mut bounds, lent);
        search.best = ordering.stage.time / if ordering.plan == drawn { margin } else { 1.0 };
        let joined = joins::best_join(&mut search, &mut |plan| bounds.need(plan) <= lent);
        let plan = joined.unwrap_or(ordering).plan;
        let large = query.vertices() >= LARGE && plan != drawn && bounds.need(&drawn) <= lent;
        let fresh = || Samples::new(store, statistics, &query, FRESH_SIZE);
        if large && !clearly_faster(fresh, &plan, &drawn) {
            return Some(described(&mut samples, &drawn));
        }
        return Some(described(&mut samples, &plan));
    }
}

/// The estimates of any accepted plan, for showing it beside the picked one.
pub fn estimate(words: &[u32], statistics: &Statistics, query: &[u8], plan: &[u8]) -> Option<Picked> {
    let query = Query::read(query)?;
    let plan = unpack(plan)?;
    let mut samples = Samples::new(Store::of(words)?, statistics, &query, UNSEEN_SIZE);
    Some(described(&mut samples, &plan))
}

/// Whether a plan is clearly faster than the drawn one by samples of their own. Those of the search led to the
/// plan that looks best in them, and in a long plan a hub that they missed may hide thousands of times the
/// rows. Such a plan has parts without a sample row, or comes to fewer rows of the whole than the drawn one.
fn clearly_faster<'a>(fresh: impl Fn() -> Samples<'a>, plan: &[Operator], drawn: &[Operator]) -> bool {
    let own = |plan: &[Operator]| {
        let mut samples = fresh();
        let time = samples.stages(plan).last().map_or(f64::MAX, |stage| stage.time);
        let unseen = samples.has_unseen(plan);
        (time, samples.rows(samples.query.all()), unseen)
    };
    let (time, rows, unseen) = own(plan);
    if unseen {
        return false;
    }
    let (drawn_time, drawn_rows, _) = own(drawn);
    drawn_time >= SHORT && LARGE_MARGIN * time < drawn_time && ROWS_MARGIN * rows >= drawn_rows
}

/// The best ordering, or one that takes at most a tenth longer and needs less. Where its need may pass what
/// is lent, the fastest that was come upon whose need may not, or the one with the least bound.
fn within_need(search: &mut Search, best: Found, bounds: &mut Bounds, lent: u64) -> Found {
    if lent < bounds.most_of_orderings() && bounds.need(&best.plan) > lent {
        search.orderings_within(f64::MAX);
        let within = |found: &Found| bounds.need(&found.plan) <= lent;
        let found = fastest(std::mem::take(&mut search.found).into_iter().filter(within));
        return found.unwrap_or_else(|| {
            let plan = bounds.least_ordering().0;
            search.samples.stages(&plan).last().map_or(best, |&stage| Found { stage, plan })
        });
    }
    if best.stage.need <= NEED_FLOOR {
        return best;
    }
    search.best = best.stage.time;
    search.orderings_within(NEED_SLACK);
    let all = std::mem::take(&mut search.found);
    let least = all.iter().map(|found| found.stage.need.max(NEED_FLOOR)).fold(best.stage.need, f64::min);
    let fits =
        |found: &Found| found.stage.need <= least && (lent >= MAX_WORDS || bounds.need(&found.plan) <= lent);
    fastest(all.into_iter().filter(fits)).unwrap_or(best)
}

fn fastest(all: impl Iterator<Item = Found>) -> Option<Found> {
    all.min_by(|a, b| a.stage.time.total_cmp(&b.stage.time))
}

/// A plan with what is thought of it.
fn described(samples: &mut Samples, plan: &[Operator]) -> Picked {
    let stages = samples.stages(plan);
    let mut operators = Vec::with_capacity(plan.len());
    let mut pile: Vec<f64> = Vec::new();
    for (operator, stage) in plan.iter().zip(&stages) {
        let operands = match operator {
            Operator::Scan(_) => 0,
            Operator::Extend(_) => 1,
            Operator::Join => 2,
        };
        let below: f64 = pile.split_off(pile.len() - operands).iter().sum();
        operators.push(Estimate {
            operator: *operator,
            rows: samples.rows(stage.set),
            time: stage.time - below,
        });
        pile.push(stage.time);
    }
    let last = stages[stages.len() - 1];
    let width = samples.query.vertices() as f64;
    let rows = samples.rows(last.set);
    let most = samples.fitting_words() as f64;
    let ordering = !plan.contains(&Operator::Join);
    let scratch = if ordering {
        (2.0 * last.need).max(NEED_FLOOR).min(most)
    } else {
        (2.0 * last.need).max(NEED_FLOOR)
    };
    Picked {
        plan: pack(plan),
        operators,
        time: last.time + time_of(Part::List, width * rows),
        need: last.need,
        scratch: words_within(scratch),
        list: words_within(2.0 * width * rows.max(512.0)),
    }
}

fn words_within(words: f64) -> u64 {
    words.min(MAX_WORDS as f64) as u64
}
