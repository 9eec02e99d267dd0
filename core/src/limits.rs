//! What no run of a plan passes, beside what a run took.

use std::fmt::Write;

use crate::engine::{Engine, MAX_WORDS};
use crate::find::{Found, Loaded};

/// One of the four bounds of a plan.
#[derive(Clone, Copy, Debug, PartialEq, Eq)]
pub struct Limit {
    pub what: &'static str,
    /// What no run passes: `u64::MAX` where the number does not fit 64 bits.
    pub bound: u64,
    /// What this run took, where it is known.
    pub took: Option<u64>,
}

/// The bounds of the plan that ran, without a run, and what the run took.
pub fn limits(engine: &dyn Engine, loaded: &Loaded, found: &Found, memory: usize) -> Option<[Limit; 4]> {
    let bounds = engine.bounds(loaded.store(), &found.query.to_bytes(), &found.plan_bytes).ok()?;
    let list = (found.places() * found.width()) as u64;
    let limit = |what, bound, took| Limit { what, bound, took };
    Some([
        limit("words of list", bounds.list_words, Some(list)),
        limit("words of scratch", bounds.scratch_words, loaded.need(engine, found, memory)),
        limit("cost", bounds.cost, Some(found.cost)),
        limit("rows of an operator", bounds.largest, found.records.iter().map(|record| record.rows).max()),
    ])
}

/// Whether a run that has so much set aside is never refused for want of it.
pub fn suffices(limits: &[Limit]) -> bool {
    limits.iter().all(|limit| limit.bound < MAX_WORDS as u64)
}

/// A bound in digits, or in words where there are none.
pub fn bound_words(bound: u64) -> String {
    match bound {
        u64::MAX => "past 64 bits".into(),
        number => number.to_string(),
    }
}

/// A line for each bound, and what it means.
pub fn limits_table(limits: &[Limit]) -> String {
    let bounds: Vec<String> = limits.iter().map(|limit| bound_words(limit.bound)).collect();
    let took: Vec<String> = limits.iter().map(|limit| limit.took.map_or_else(String::new, |n| n.to_string())).collect();
    let width = |column: &[String], head: &str| column.iter().map(String::len).max().unwrap_or(0).max(head.len());
    let what = limits.iter().map(|limit| limit.what.len()).max().unwrap_or(0);
    let (most, this) = (width(&bounds, "at most"), width(&took, "this run"));
    let mut out = format!("{:what$}  {:>most$}  {:>this$}\n", "", "at most", "this run");
    for ((limit, bound), took) in limits.iter().zip(&bounds).zip(&took) {
        let line = format!("{:what$}  {bound:>most$}  {took:>this$}", limit.what);
        let _ = writeln!(out, "{}", line.trim_end());
    }
    if suffices(limits) {
        out.push_str("\nWith so many words set aside no run of this plan is refused for want of them.\n");
    }
    out
}

#[cfg(test)]
mod tests {
    use super::{limits_table, Limit};

    #[test]
    fn past_64_bits() {
        let limits = [
            Limit { what: "words of list", bound: u64::MAX, took: Some(12) },
            Limit { what: "cost", bound: 7, took: None },
        ];
        let table = limits_table(&limits);
        assert_eq!(table, "                    at most  this run\nwords of list  past 64 bits        12\ncost                      7\n");
    }
}
