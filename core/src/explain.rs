//! A plan in words, as a drawing, and where its work went.

use std::collections::BTreeSet;
use std::fmt::Write;

use crate::document::{Document, Pattern};
use crate::engine::{meaning, Engine};
use crate::failure::Failure;
use crate::find::{places, Found, Loaded};
use crate::limits::{limits, limits_table};
use crate::packed::edge::{Edge, ANY_LABEL};
use crate::packed::plan::{Operator, Plan};
use crate::picker::Picked;
use crate::plans::Origin;

/// The plan of an answer, what each operator was thought to do and did, and the plans that did not run.
pub fn explain(engine: &dyn Engine, loaded: &Loaded, found: &Found, memory: usize) -> Result<String, Failure> {
    let mut out = String::new();
    let document = loaded.document;
    let pattern = &found.pattern;
    let from = match found.origin {
        Origin::Given => "the plan of the text",
        Origin::Picked => "the plan that was picked",
        Origin::Drawn | Origin::Instead(_) => "a plan that the engine drew",
        Origin::Cheapest => "the cheapest plan of one scan and extends",
    };
    let _ = writeln!(out, "{}: {} by {from}, cost {}", pattern.title(), places(found.places()), found.cost);
    if let Some(sentence) = instead(found) {
        let _ = writeln!(out, "{sentence}");
    }
    let _ = writeln!(out, "{}", reads(document, pattern));
    out.push('\n');
    for (i, step) in steps(document, found).iter().enumerate() {
        let _ = writeln!(out, "{}. {step}", i + 1);
    }
    out.push('\n');
    out.push_str(&tree(document, found));
    out.push('\n');
    let query = found.query.to_bytes();
    let estimate = found.estimate.clone().or_else(|| loaded.estimate(&query, &found.plan_bytes));
    bars(&mut out, document, found, estimate.as_ref());
    let _ = writeln!(
        out,
        "\nThe cost counts the entries of neighbour lists that were looked up; the longest bar is the operator to change."
    );
    if let Some(limits) = limits(engine, loaded, found, memory) {
        out.push('\n');
        out.push_str(&limits_table(&limits));
        out.push('\n');
    }
    if found.origin != Origin::Picked {
        if let Some(picked) = loaded.pick(&query, memory) {
            beside(&mut out, document, found, "picked", estimate.as_ref(), &picked);
        }
    }
    if matches!(found.origin, Origin::Given | Origin::Picked | Origin::Cheapest) {
        if let Some(drawn) = loaded.estimate(&query, &loaded.draw(engine, &query)?) {
            beside(&mut out, document, found, "drawn", estimate.as_ref(), &drawn);
        }
    }
    Ok(out)
}

/// Which kinds of connection a pattern reads. Without one of any kind, no other can change what is listed, nor how much is looked up.
fn reads(document: &Document, pattern: &Pattern) -> String {
    let labels: BTreeSet<u32> = pattern.query.edges.iter().map(|e| e.label).collect();
    if labels.contains(&ANY_LABEL) {
        return "It reads connections of every kind.".into();
    }
    let kinds: Vec<_> = labels.into_iter().map(|label| document.connection_kind(label)).collect();
    let kinds = match &kinds[..] {
        [one] => format!("kind {one}"),
        [first @ .., last] => format!("the kinds {} and {last}", first.join(", ")),
        [] => "no kind".into(),
    };
    format!("It reads connections of {kinds}; no other connection can change its list.")
}

/// Says that the drawn plan ran instead of a picked one, where it did.
pub fn instead(found: &Found) -> Option<String> {
    match found.origin {
        Origin::Instead(Some(refusal)) => Some(format!(
            "the engine refused the picked plan with {}: {}; the drawn plan was run",
            refusal.0,
            meaning(refusal)
        )),
        Origin::Instead(None) => Some("no plan was picked; the drawn plan was run".into()),
        _ => None,
    }
}

/// A plan that did not run: its operators with the rows that they are thought to have, and its time beside that of the
/// one that ran.
fn beside(out: &mut String, document: &Document, found: &Found, word: &str, ran: Option<&Picked>, other: &Picked) {
    if other.plan == found.plan_bytes {
        let _ = writeln!(out, "The {word} plan is the same.");
        return;
    }
    let plan = match Plan::from_bytes(&other.plan, &found.query) {
        Ok(plan) => plan,
        Err(_) => return,
    };
    let operators = plan.operators.iter().zip(&other.operators);
    let steps: Vec<String> = operators
        .map(|(&operator, thought)| format!("{} ({} rows)", document.operator(&found.pattern, operator), rows(thought.rows)))
        .collect();
    let time = ran.filter(|ran| ran.time > 0.0).map_or_else(String::new, |ran| {
        let ratio = other.time / ran.time;
        let digits = if ratio < 10.0 { 1 } else { 0 };
        format!("; {ratio:.digits$} of the time")
    });
    let _ = writeln!(out, "The {word} plan, by estimates: {}{time}.", steps.join(", "));
}

/// An estimate of rows.
fn rows(estimated: f64) -> String {
    let digits = if estimated < 10.0 && estimated != estimated.round() { 1 } else { 0 };
    format!("{estimated:.digits$}")
}

/// The result of an operator: the vertices it covers.
type Covered = Vec<u32>;

/// A sentence for each operator.
pub fn steps(document: &Document, found: &Found) -> Vec<String> {
    let pattern = &found.pattern;
    let query = &found.query;
    let list = |vertices: &[u32]| vertices.iter().map(|&v| pattern.vertex(v)).collect::<Vec<_>>().join(", ");
    let mut pile: Vec<Covered> = Vec::new();
    let mut steps = Vec::with_capacity(found.plan.operators.len());
    for &operator in &found.plan.operators {
        steps.push(match operator {
            Operator::Scan(e) => {
                let e = &query.edges[e as usize];
                pile.push(vec![e.source, e.target]);
                format!("begin with every {}", document.pattern_edge(pattern, e))
            }
            Operator::Extend(v) => {
                let covered = pile.last_mut().map(std::mem::take).unwrap_or_default();
                let by = between(document, pattern, &query.edges, v, &covered);
                let sentence = format!("for each, add every item for {} that has {by}", pattern.vertex(v));
                if let Some(last) = pile.last_mut() {
                    *last = covered;
                    last.push(v);
                }
                sentence
            }
            Operator::Join => {
                let probe = pile.pop().unwrap_or_default();
                let build = pile.pop().unwrap_or_default();
                let shared: Covered = probe.iter().copied().filter(|v| build.contains(v)).collect();
                let mut both = build;
                both.extend(probe.iter().filter(|v| !shared.contains(v)));
                let sentence = format!("put the last two results together where they agree in {}", list(&shared));
                pile.push(both);
                sentence
            }
        });
    }
    steps
}

/// The connections between a vertex and covered ones, in words.
fn between(document: &Document, pattern: &Pattern, edges: &[Edge], v: u32, covered: &[u32]) -> String {
    let joins =
        |e: &&Edge| (e.source == v && covered.contains(&e.target)) || (e.target == v && covered.contains(&e.source));
    let words: Vec<String> = edges.iter().filter(joins).map(|e| document.pattern_edge(pattern, e)).collect();
    words.join(" and ")
}

/// The plan as a tree, the last operator on top.
pub fn tree(document: &Document, found: &Found) -> String {
    let mut pile: Vec<Vec<String>> = Vec::new();
    for &operator in &found.plan.operators {
        let mut lines = vec![document.operator(&found.pattern, operator)];
        let operands = match operator {
            Operator::Scan(_) => 0,
            Operator::Extend(_) => 1,
            Operator::Join => 2,
        };
        let below = pile.split_off(pile.len().saturating_sub(operands));
        for (i, operand) in below.iter().enumerate() {
            let is_last = i + 1 == below.len();
            for (j, line) in operand.iter().enumerate() {
                let branch = match (j, is_last) {
                    (0, false) => "├─ ",
                    (0, true) => "└─ ",
                    (_, false) => "│  ",
                    (_, true) => "   ",
                };
                lines.push(format!("{branch}{line}"));
            }
        }
        pile.push(lines);
    }
    pile.iter().flatten().map(|line| format!("{line}\n")).collect()
}

pub(crate) const BAR: u64 = 24;

fn bars(out: &mut String, document: &Document, found: &Found, estimate: Option<&Picked>) {
    let names: Vec<String> = found.plan.operators.iter().map(|&o| document.operator(&found.pattern, o)).collect();
    let thought = |i: usize| estimate.and_then(|e| e.operators.get(i)).map_or_else(String::new, |o| rows(o.rows));
    let width = names.iter().map(|n| n.chars().count()).max().unwrap_or(0).max("operator".len());
    let most_rows = found.records.iter().map(|r| r.rows).max().unwrap_or(0);
    let most_cost = found.records.iter().map(|r| r.cost).max().unwrap_or(0);
    let digits = |n: u64, head: &str| n.to_string().len().max(head.len());
    let (rows, cost) = (digits(most_rows, "rows"), digits(found.cost, "cost"));
    let estimated = (0..names.len()).map(|i| thought(i).len()).max().unwrap_or(0).max("estimated".len());
    let bar_width = BAR as usize;
    let _ = writeln!(
        out,
        "{:width$}  {:>estimated$}  {:>rows$} {:bar_width$}  {:>cost$}",
        "operator", "estimated", "rows", "", "cost"
    );
    for (i, (name, record)) in names.iter().zip(&found.records).enumerate() {
        let blanks = width - name.chars().count();
        let line = format!(
            "{name}{:blanks$}  {:>estimated$}  {:>rows$} {:bar_width$}  {:>cost$} {}",
            "",
            thought(i),
            record.rows,
            bar(record.rows, most_rows),
            record.cost,
            bar(record.cost, most_cost)
        );
        let _ = writeln!(out, "{}", line.trim_end());
    }
}

/// A bar in proportion to the most; what is not nothing has one sign at least.
pub(crate) fn bar(value: u64, most: u64) -> String {
    if value == 0 {
        return String::new();
    }
    let length = (u128::from(value) * u128::from(BAR) / u128::from(most)) as usize;
    "#".repeat(length.max(1))
}
