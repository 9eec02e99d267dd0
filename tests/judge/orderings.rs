//! All orderings of a small query, by trying every list of vertices.
use super::graph::Graph;
use super::matcher::Matcher;
use super::plan::{self, Operator};
use super::query::Query;
use super::rules;

/// The plans of one scan and n - 2 extends by any vertices that the rules accept, in order.
pub fn plans(query: &Query) -> Vec<Vec<Operator>> {
    let n = query.vertices();
    let mut plans = Vec::new();
    for scan in 0..query.edges.len() {
        for number in 0..n.pow(n as u32 - 2) {
            let vertices = (0..n as u32 - 2).rev().map(|place| Operator::Extend(number / n.pow(place) % n));
            let plan: Vec<Operator> = [Operator::Scan(scan)].into_iter().chain(vertices).collect();
            if plan::read(query, &plan::file(&plan)).is_ok() {
                plans.push(plan);
            }
        }
    }
    plans
}

/// What is to be listed in so many words with so much scratch, or the refusal; and the need of each ordering, where they are run. None where
/// an ordering has a result of more than `most` rows.
pub fn list(store: &[u32], query: &[u8], scratch: usize, words: usize, most: usize) -> Option<(Result<Vec<u32>, u32>, Vec<usize>)> {
    let read = match Query::read(query) {
        Err(refusal) => return Some((Err(refusal), Vec::new())),
        Ok(read) if read.vertices() > 5 => return Some((Err(31), Vec::new())),
        Ok(read) => read,
    };
    let Some(graph) = Graph::of_store(store) else {
        return Some((Err(19), Vec::new()));
    };
    let plans = plans(&read);
    let matcher = Matcher::new(&graph);
    let mut entries = Vec::new();
    let mut needs = Vec::new();
    for plan in &plans {
        let answer = rules::run(&matcher, &read, plan, true, most)?;
        needs.push(answer.need);
        entries.extend(plan.iter().map(|operator| match *operator {
            Operator::Scan(x) | Operator::Extend(x) => x as u32,
            _ => unreachable!(),
        }));
        entries.extend([(answer.cost >> 32) as u32, answer.cost as u32]);
    }
    let listed = if words < entries.len() {
        Err(32)
    } else if needs.iter().any(|&need| scratch < need) {
        Err(20)
    } else {
        Ok(entries)
    };
    Some((listed, needs))
}
