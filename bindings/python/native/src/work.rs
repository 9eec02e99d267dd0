//! Patterns in a hang: their places, and the work of a run.

use std::sync::Arc;

use rizhavaan_core::engine::{Bounds, Engine};
use rizhavaan_core::explain::explain as told;
use rizhavaan_core::find::once;
use rizhavaan_core::json::FoundJson;
use rizhavaan_core::orderings::cheapest;
use rizhavaan_core::why::why;
use rizhavaan_core::{read_patterns, Document, Found, Loaded, Pattern, Reading, Source};
use serde_json::{json, Value};

use crate::call::{Call, Made, No, Said};
use crate::engine::Library;
use crate::thing::{List, Thing};

/// Has the pattern of a question, which is a text, looked at beside its hang.
fn with_pattern<T>(
    call: &Call,
    thing: &Thing,
    look: impl FnOnce(&Loaded, &Pattern, &Reading) -> Result<T, No>,
) -> Result<(T, Vec<Value>), No> {
    let hang = thing.hang()?;
    let sources = [Source::new("pattern", call.text("pattern")?)];
    let reading = read_patterns(&hang.document, &sources);
    reading.errors()?;
    let pattern = reading.document.as_ref().and_then(|document: &Document| document.patterns.first());
    let pattern = pattern.ok_or_else(|| No::input("there is no pattern: no [query]"))?;
    let answer = look(&hang.loaded()?, pattern, &reading)?;
    Ok((answer, reading.warnings()))
}

/// What is said of a list beside its rows.
fn described(loaded: &Loaded, found: &Found) -> Result<Value, No> {
    let view = FoundJson { loaded, found, list: false };
    serde_json::to_value(&view).map_err(|e| No::internal(e.to_string()))
}

/// The places of a pattern.
pub fn find(call: &Call, thing: &Arc<Thing>) -> Result<Made, No> {
    let options = call.options(false)?;
    let ((mut json, found), warnings) = with_pattern(call, thing, |loaded, pattern, reading| {
        let found = reading.or_no(loaded.find(&Library, pattern, &options))?;
        let mut json = described(loaded, &found)?;
        if found.places() == 0 {
            json["why"] = why(loaded, &found).into();
        }
        Ok((json, found))
    })?;
    json["warnings"] = warnings.into();
    Ok(Made::thing(json, Thing::List(List::new(thing, found))))
}

/// How many places a pattern has.
pub fn count(call: &Call, thing: &Arc<Thing>) -> Result<Made, No> {
    let options = call.options(true)?;
    let (places, warnings) = with_pattern(call, thing, |loaded, pattern, reading| {
        reading.or_no(loaded.find(&Library, pattern, &options)).map(|found| found.places())
    })?;
    Ok(json!({ "places": places, "warnings": warnings }).into())
}

/// The hang's own patterns that expect something, and whether it holds.
pub fn check(call: &Call, thing: &Arc<Thing>) -> Result<Made, No> {
    let options = call.options(true)?;
    let hang = thing.hang()?;
    let loaded = hang.loaded()?;
    let mut rules = Vec::new();
    for pattern in &hang.document.patterns {
        let Some(expect) = pattern.expect else { continue };
        let places = loaded.find(&Library, pattern, &options)?.places();
        rules.push(json!({
            "pattern": pattern.title(),
            "sentence": pattern.sentence,
            "expect": expect.to_string(),
            "places": places,
            "holds": expect.holds(places as u64),
        }));
    }
    Ok(json!({ "rules": rules }).into())
}

/// What no run of the plan passes.
pub fn bounds(call: &Call, thing: &Arc<Thing>) -> Result<Made, No> {
    let options = call.options(false)?;
    let (json, _) = with_pattern(call, thing, |loaded, pattern, reading| {
        let query = reading.or_no(query(pattern, options.once))?;
        let planned = reading.or_no(loaded.planned(&Library, pattern, &query, &options))?;
        let bounds = Library.bounds(loaded.store(), &query, &planned.bytes);
        let refused = |refusal| rizhavaan_core::Failure::Refused { what: "to bound the run", refusal };
        let Bounds { list_words, scratch_words, cost, largest } = bounds.map_err(refused)?;
        Ok(json!({ "listWords": list_words, "scratchWords": scratch_words, "cost": cost, "largest": largest }))
    })?;
    Ok(json.into())
}

/// The packed query of a pattern, with pairs that list mirror images once where that is asked for.
fn query(pattern: &Pattern, is_once: bool) -> Result<Vec<u8>, rizhavaan_core::Failure> {
    if let Some(fault) = &pattern.fault {
        return Err(rizhavaan_core::Failure::At(Box::new(fault.clone())));
    }
    Ok(if is_once { once(pattern)?.0.to_bytes() } else { pattern.query.to_bytes() })
}

/// All plans of one scan and extends, with their costs.
pub fn orderings(call: &Call, thing: &Arc<Thing>) -> Result<Made, No> {
    let options = call.options(false)?;
    let (json, _) = with_pattern(call, thing, |loaded, pattern, reading| {
        let query = reading.or_no(query(pattern, options.once))?;
        let all = reading.or_no(loaded.orderings(&Library, &query, options.memory))?;
        let drawn = reading.or_no(loaded.draw(&Library, &query))?;
        let least = cheapest(&all);
        let one = |ordering: &rizhavaan_core::orderings::Ordering| {
            let operators = ordering.plan.operators.iter().map(|&o| loaded.document.operator(pattern, o));
            json!({
                "plan": operators.collect::<Vec<_>>(),
                "cost": ordering.cost,
                "drawn": ordering.plan.to_bytes() == drawn,
                "cheapest": least == Some(ordering),
            })
        };
        Ok(json!({ "orderings": all.iter().map(one).collect::<Vec<_>>() }))
    })?;
    Ok(json.into())
}

/// Where the work of a run went.
pub fn explain(call: &Call, thing: &Arc<Thing>) -> Result<Made, No> {
    let options = call.options(true)?;
    let (json, _) = with_pattern(call, thing, |loaded, pattern, reading| {
        let found = reading.or_no(loaded.find_recorded(&Library, pattern, &options))?;
        let mut json = described(loaded, &found)?;
        json["text"] = reading.or_no(told(&Library, loaded, &found, options.memory))?.into();
        Ok(json)
    })?;
    Ok(json.into())
}
