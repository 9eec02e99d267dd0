//! All orderings of a small pattern with their costs: the cheapest, and a plot of them.

use std::fmt::Write;

use crate::document::Pattern;
use crate::engine::{Engine, Refusal, MAX_ORDERED_VERTICES, MAX_ORDERING_WORDS, MAX_WORDS};
use crate::explain::{bar, BAR};
use crate::failure::Failure;
use crate::find::Loaded;
use crate::packed::plan::{Operator, Plan};
use crate::packed::query::Query;

/// A plan of one scan and extends, and its cost with the cache on.
#[derive(Clone, Debug, PartialEq, Eq)]
pub struct Ordering {
    pub plan: Plan,
    pub cost: u64,
}

impl Ordering {
    /// The vertices in the turn in which it covers them.
    pub fn vertices(&self, query: &Query) -> Vec<u32> {
        let mut vertices = Vec::with_capacity(query.vertices.len());
        for &operator in &self.plan.operators {
            match operator {
                Operator::Scan(e) => {
                    let e = &query.edges[e as usize];
                    vertices.extend([e.source, e.target]);
                }
                Operator::Extend(v) => vertices.push(v),
                Operator::Join => {}
            }
        }
        vertices
    }
}

/// All orderings of a pattern, and which of them are plans that a run may take.
#[derive(Clone, Debug)]
pub struct Compared {
    /// As the engine lists them, each with what it is: drawn, given, picked, cheapest.
    pub orderings: Vec<(Ordering, Vec<&'static str>)>,
    /// The plans that have a join and so are none of them: given, picked.
    pub apart: Vec<&'static str>,
}

/// The words of scratch that all orderings begin with.
const FIRST_WORDS: usize = 1 << 14;

/// The first of the least cost.
pub fn cheapest(orderings: &[Ordering]) -> Option<&Ordering> {
    orderings.iter().min_by_key(|ordering| ordering.cost)
}

/// Says why there are none to compare, where a pattern is too large.
pub fn why_none(query: &Query) -> Option<String> {
    let vertices = query.vertices.len();
    (vertices > MAX_ORDERED_VERTICES).then(|| {
        format!("all orderings are compared for patterns of at most {MAX_ORDERED_VERTICES} items, and this one has {vertices}")
    })
}

impl Loaded<'_> {
    /// All orderings of a packed query, in a scratch that grows until they fit, within so many bytes.
    pub fn orderings(&self, engine: &dyn Engine, query: &[u8], memory: usize) -> Result<Vec<Ordering>, Failure> {
        let most = (memory / 4).clamp(FIRST_WORDS, MAX_WORDS);
        let mut words = vec![0; MAX_ORDERING_WORDS];
        let mut scratch = vec![0; FIRST_WORDS];
        let plans = loop {
            match engine.orderings(self.store(), query, &mut scratch, &mut words) {
                Ok(plans) => break plans as usize,
                Err(Refusal(20)) if scratch.len() < most => scratch = vec![0; (4 * scratch.len()).min(most)],
                Err(Refusal(20)) => return Err(Failure::Memory { scratch: scratch.len(), list: 0, counted: false, memory }),
                Err(refusal) => return Err(Failure::Refused { what: "to list all orderings", refusal }),
            }
        };
        let width = query.first().map_or(0, |&byte| usize::from(byte >> 4)) + 1;
        Ok(words.chunks_exact(width).take(plans).map(ordering).collect())
    }

    /// All orderings of a pattern, and which of them are its drawn, given, picked and cheapest plan.
    pub fn compared(
        &self,
        engine: &dyn Engine,
        pattern: &Pattern,
        query: &Query,
        memory: usize,
    ) -> Result<Compared, Failure> {
        if let Some(fault) = &pattern.fault {
            return Err(Failure::At(Box::new(fault.clone())));
        }
        let bytes = query.to_bytes();
        let orderings = self.orderings(engine, &bytes, memory)?;
        let given = pattern.plan.as_ref().filter(|_| pattern.plan_fault.is_none()).map(Plan::to_bytes);
        let plans = [
            ("drawn", Some(self.draw(engine, &bytes)?)),
            ("given", given),
            ("picked", self.pick(&bytes, memory).map(|picked| picked.plan)),
            ("cheapest", cheapest(&orderings).map(|ordering| ordering.plan.to_bytes())),
        ];
        let mut marks = vec![Vec::new(); orderings.len()];
        let mut apart = Vec::new();
        for (word, plan) in plans {
            let plan = match plan {
                Some(plan) => plan,
                None => continue,
            };
            match orderings.iter().position(|ordering| ordering.plan.to_bytes() == plan) {
                Some(i) => marks[i].push(word),
                None => apart.push(word),
            }
        }
        Ok(Compared { orderings: orderings.into_iter().zip(marks).collect(), apart })
    }
}

/// The ordering of an entry: the scan's index, the vertices in turn, the cost's high word, its low word.
fn ordering(entry: &[u32]) -> Ordering {
    let (numbers, cost) = entry.split_at(entry.len() - 2);
    let extends = numbers[1..].iter().map(|&vertex| Operator::Extend(vertex));
    let operators = std::iter::once(Operator::Scan(numbers[0])).chain(extends).collect();
    Ordering { plan: Plan { operators }, cost: u64::from(cost[0]) << 32 | u64::from(cost[1]) }
}

/// All orderings of a pattern, a line each with a bar for its cost and what it is; the cheapest is named below.
pub fn plot(
    engine: &dyn Engine,
    loaded: &Loaded,
    pattern: &Pattern,
    query: &Query,
    memory: usize,
) -> Result<String, Failure> {
    if let Some(why) = why_none(query) {
        return Ok(format!("No orderings: {why}.\n"));
    }
    let Compared { orderings, apart } = loaded.compared(engine, pattern, query, memory)?;
    let in_words = |ordering: &Ordering| {
        let operators = ordering.plan.operators.iter().map(|&operator| loaded.document.operator(pattern, operator));
        operators.collect::<Vec<_>>().join(", ")
    };
    let most = orderings.iter().map(|(ordering, _)| ordering.cost).max().unwrap_or(0);
    let digits = most.to_string().len();
    let bar_width = BAR as usize;
    let mut out = match orderings.len() {
        1 => "The only plan of one scan and extends, with its cost:\n\n".to_string(),
        n => format!("All {n} plans of one scan and extends, with their costs:\n\n"),
    };
    for (ordering, marks) in &orderings {
        let mark = if marks.is_empty() { String::new() } else { format!("  ({})", marks.join(", ")) };
        let line =
            format!("{:>digits$} {:bar_width$}  {}{mark}", ordering.cost, bar(ordering.cost, most), in_words(ordering));
        let _ = writeln!(out, "{}", line.trim_end());
    }
    out.push('\n');
    for word in apart {
        let _ = writeln!(out, "The {word} plan has a join, and is none of them.");
    }
    if let Some((least, _)) = orderings.iter().find(|(_, marks)| marks.contains(&"cheapest")) {
        let _ = writeln!(out, "The cheapest, at {}: {}.", least.cost, in_words(least));
    }
    Ok(out)
}
