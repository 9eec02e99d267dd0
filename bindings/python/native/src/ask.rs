//! Which question it is.

use std::sync::Arc;

use library::Refusal;
use serde_json::{json, Value};

use crate::call::{Call, Made, No};
use crate::thing::Thing;
use crate::{hang, list, pattern, work};

pub fn ask(thing: Option<&Arc<Thing>>, lent: &[&[u8]]) -> Result<Made, No> {
    let (json, lent) = lent.split_first().ok_or_else(|| No::internal("nothing is asked"))?;
    let asked: Value =
        serde_json::from_slice(json).map_err(|e| No::internal(format!("the question is no JSON: {e}")))?;
    let call = Call { asked: &asked, lent };
    let of = call.text("ask")?;
    let Some(thing) = thing else {
        return match of {
            "read" => hang::read(&call),
            "arrays" => hang::arrays(&call),
            "pattern" => pattern::read(&call),
            "write_pattern" => pattern::write(&call),
            "refusals" => Ok(refusals().into()),
            other => Err(unknown(other)),
        };
    };
    match (of, &**thing) {
        ("names", Thing::Hang(hang)) => hang::names(hang),
        ("items", Thing::Hang(hang)) => hang::items(hang),
        ("connections", Thing::Hang(hang)) => hang::connections(hang),
        ("text", Thing::Hang(hang)) => hang::text(hang),
        ("changed", Thing::Hang(hang)) => hang::changed(&call, hang),
        ("picture", Thing::Hang(hang)) => hang::picture(&call, hang),
        ("find", Thing::Hang(_)) => work::find(&call, thing),
        ("count", Thing::Hang(_)) => work::count(&call, thing),
        ("check", Thing::Hang(_)) => work::check(&call, thing),
        ("bounds", Thing::Hang(_)) => work::bounds(&call, thing),
        ("orderings", Thing::Hang(_)) => work::orderings(&call, thing),
        ("explain", Thing::Hang(_)) => work::explain(&call, thing),
        ("page", Thing::List(list)) => list::page(&call, list),
        ("key", Thing::List(list)) => list::key(&call, list),
        ("csv", Thing::List(list)) => list::csv(&call, list),
        ("picture", Thing::List(list)) => list::picture(&call, list),
        ("place", Thing::List(list)) => list::place(&call, list),
        (other, _) => Err(unknown(other)),
    }
}

fn unknown(of: &str) -> No {
    No::internal(format!("there is no question '{of}' of this"))
}

/// Every refusal: its number, name and sentence.
fn refusals() -> Value {
    let one = |refusal: &Refusal| json!({ "number": refusal.number(), "name": format!("{refusal:?}"), "sentence": refusal.meaning() });
    Refusal::ALL.iter().map(one).collect()
}
