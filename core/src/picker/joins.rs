//! Plans with a join: of two covered sets that share a vertex and between whose other vertices no query
//! edge runs, then extends.

use super::query::{Operator, Set};
use super::search::{Found, Search};
use super::time::{time_of, Part};

/// A plan with a join is taken only where the model gives it less than this share of the best ordering's
/// time: it knows joins less well.
const MARGIN: f64 = 0.8;

/// Whether two results may be joined.
fn joinable(search: &Search, one: Set, other: Set) -> bool {
    let (left, right) = (one & !other, other & !one);
    one & other != 0 && left != 0 && right != 0 && !search.samples.query.joined(left, right)
}

/// The fastest plan with a join that is clearly faster than the best ordering, if there is one; `fits` says
/// which plans may be taken.
pub fn best_join(search: &mut Search, fits: &mut dyn FnMut(&[Operator]) -> bool) -> Option<Found> {
    let below = MARGIN * search.best;
    let mut best: Option<Found> = None;
    let stages = search.stages.clone();
    let sets = search.covered(below);
    for &build in &sets {
        for &probe in &sets {
            let limit = best.as_ref().map_or(below, |found| found.stage.time);
            if search.is_spent() {
                return best;
            }
            if !joinable(search, build, probe) {
                continue;
            }
            let (built, probed) = match (&stages[build as usize], &stages[probe as usize]) {
                (Some(built), Some(probed)) => (built, probed),
                _ => continue,
            };
            let table = time_of(Part::Build, search.samples.rows(build))
                + time_of(Part::Probe, search.samples.rows(probe));
            if built.stage.time + probed.stage.time + table >= limit {
                continue;
            }
            search.samples.reach(build, build | probe);
            // Of a result that no sample row reached nothing is known.
            if [build, probe, build | probe].iter().any(|&set| search.samples.unseen(set)) {
                continue;
            }
            let stage = search.samples.joined(&built.stage, &probed.stage);
            if stage.time >= limit {
                continue;
            }
            let plan = [&built.plan[..], &probed.plan, &[Operator::Join]].concat();
            search.found.clear();
            search.from_stage(stage, &plan, limit);
            if let Some(found) = search.found.pop() {
                if fits(&found.plan) {
                    best = Some(found);
                }
            }
        }
    }
    best
}
