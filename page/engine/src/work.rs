//! `explain`: the plan of a run, where its work went, its bounds, and the plans that did not run; `orderings`: all plans of one scan and
//! extends, with their costs.

use rizhavaan_core::explain::{explain as told, instead, steps, tree};
use rizhavaan_core::find::once;
use rizhavaan_core::limits::{limits, suffices, Limit};
use rizhavaan_core::orderings::{why_none, Compared, Ordering};
use rizhavaan_core::packed::plan::{Operator, Plan};
use rizhavaan_core::picker::Picked;
use rizhavaan_core::{Document, Found, Loaded, Origin, Pattern};
use serde_json::{json, Value};

use crate::call::{Answer, Call, OrNo};
use crate::library::Library;

pub fn explain(call: &Call) -> Answer {
    let options = call.options(true)?;
    call.with_document(|answer, reading, document| {
        let pattern = call.pattern(document, reading)?;
        let loaded = reading.or_no(Loaded::load(&Library, document))?;
        let found = reading.or_no(loaded.find_recorded(&Library, pattern, &options))?;
        let query = found.query.to_bytes();
        let estimate = found.estimate.clone().or_else(|| loaded.estimate(&query, &found.plan_bytes));
        answer.put("pattern", &pattern.title());
        answer.put("places", &found.places());
        answer.put("cost", &found.cost);
        answer.put("build", &found.build);
        answer.put("probe", &found.probe);
        answer.put("planFrom", &found.origin.word());
        answer.put("instead", &instead(&found));
        answer.put("plan", &words(document, &found.pattern, &found.plan.operators));
        answer.put("steps", &steps(document, &found));
        answer.put("tree", &tree(document, &found));
        answer.put("records", &records(document, &found, estimate.as_ref()));
        let limits = limits(&Library, &loaded, &found, options.memory);
        answer.put("suffices", &limits.map_or(false, |limits| suffices(&limits)));
        answer.put("limits", &limits.iter().flatten().map(limit).collect::<Vec<_>>());
        let mut others = Vec::new();
        if found.origin != Origin::Picked {
            let picked = loaded.pick(&query, options.memory);
            others.extend(picked.and_then(|picked| beside(document, &found, "picked", estimate.as_ref(), &picked)));
        }
        if matches!(found.origin, Origin::Given | Origin::Picked | Origin::Cheapest) {
            let drawn = loaded.estimate(&query, &reading.or_no(loaded.draw(&Library, &query))?);
            others.extend(drawn.and_then(|drawn| beside(document, &found, "drawn", estimate.as_ref(), &drawn)));
        }
        answer.put("others", &others);
        answer.put("text", &reading.or_no(told(&Library, &loaded, &found, options.memory))?);
        Ok(())
    })
}

/// All orderings of a pattern, without a run by the plan that is chosen: each is run, so that it may take long.
pub fn orderings(call: &Call) -> Answer {
    let options = call.options(true)?;
    call.with_document(|answer, reading, document| {
        let pattern = call.pattern(document, reading)?;
        let loaded = reading.or_no(Loaded::load(&Library, document))?;
        let query = if options.once { reading.or_no(once(pattern))?.0 } else { pattern.query.clone() };
        answer.put("pattern", &pattern.title());
        if let Some(why) = why_none(&query) {
            answer.put("why", &why);
            answer.put("orderings", &[(); 0]);
            answer.put("apart", &[(); 0]);
            return Ok(());
        }
        let Compared { orderings, apart } =
            reading.or_no(loaded.compared(&Library, pattern, &query, options.memory))?;
        let told = |(ordering, marks): &(Ordering, Vec<&str>)| {
            let vertices: Vec<_> = ordering.vertices(&query).into_iter().map(|v| pattern.vertex(v)).collect();
            let plan = words(document, pattern, &ordering.plan.operators);
            json!({ "vertices": vertices, "plan": plan, "cost": ordering.cost, "marks": marks })
        };
        answer.put("why", &Value::Null);
        answer.put("orderings", &orderings.iter().map(told).collect::<Vec<_>>());
        answer.put("apart", &apart);
        Ok(())
    })
}

/// A bound, none where it does not fit 64 bits.
fn limit(limit: &Limit) -> Value {
    let bound = Some(limit.bound).filter(|&bound| bound != u64::MAX);
    json!({ "what": limit.what, "bound": bound, "took": limit.took })
}

fn words(document: &Document, pattern: &Pattern, operators: &[Operator]) -> Vec<String> {
    operators.iter().map(|&operator| document.operator(pattern, operator)).collect()
}

fn records(document: &Document, found: &Found, estimate: Option<&Picked>) -> Vec<Value> {
    let names = words(document, &found.pattern, &found.plan.operators);
    let record = |(i, (name, record)): (usize, (&String, &rizhavaan_core::engine::Record))| {
        let estimated = estimate.and_then(|e| e.operators.get(i)).map(|o| o.rows);
        json!({ "operator": name, "rows": record.rows, "cost": record.cost, "estimated": estimated })
    };
    names.iter().zip(&found.records).enumerate().map(record).collect()
}

/// A plan that did not run, by estimates; its time as a multiple of that of the one that ran.
fn beside(document: &Document, found: &Found, word: &str, ran: Option<&Picked>, other: &Picked) -> Option<Value> {
    let plan = Plan::from_bytes(&other.plan, &found.query).ok()?;
    let time = ran.filter(|ran| ran.time > 0.0).map(|ran| other.time / ran.time);
    Some(json!({
        "planFrom": word,
        "same": other.plan == found.plan_bytes,
        "plan": words(document, &found.pattern, &plan.operators),
        "estimated": other.operators.iter().map(|o| o.rows).collect::<Vec<_>>(),
        "time": time,
    }))
}
