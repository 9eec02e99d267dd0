//! What well-formed files are refused for: an unconnected query and the rules of a plan.

use crate::packed::edge::Edge;
use crate::packed::plan::{Operator, Plan};
use crate::packed::query::Query;

/// A broken rule, with the number that the engine refuses it with.
#[derive(Debug, PartialEq, Eq)]
pub struct Broken {
    /// The index of the operator that breaks it; none if the plan as a whole does.
    pub operator: Option<usize>,
    pub refusal: u8,
    pub reason: String,
}

/// A set of query vertices, a bit each.
type VertexSet = u8;

fn bit(vertex: u32) -> VertexSet {
    1 << vertex
}

fn ends(e: &Edge) -> VertexSet {
    bit(e.source) | bit(e.target)
}

fn all(query: &Query) -> VertexSet {
    (0..query.vertices.len() as u32).fold(0, |set, v| set | bit(v))
}

/// The edge has both ends in the set.
fn inside(set: VertexSet, e: &Edge) -> bool {
    ends(e) & !set == 0
}

/// Ignoring direction, every vertex is reached from vertex 0.
pub fn is_connected(query: &Query) -> bool {
    let mut seen = bit(0);
    for _ in &query.vertices {
        for e in &query.edges {
            if ends(e) & seen != 0 {
                seen |= ends(e);
            }
        }
    }
    seen == all(query)
}

/// How vertices and edges of a query are spoken of.
pub struct Spelling<'a> {
    pub vertex: &'a dyn Fn(u32) -> String,
    pub edge: &'a dyn Fn(&Edge) -> String,
}

/// The first rule that a plan breaks.
pub fn broken_rule(query: &Query, plan: &Plan, spelling: &Spelling) -> Option<Broken> {
    let mut pile = Vec::new();
    for (i, &operator) in plan.operators.iter().enumerate() {
        if let Err((refusal, reason)) = step(query, operator, &mut pile, spelling) {
            return Some(Broken { operator: Some(i), refusal, reason });
        }
    }
    let (refusal, reason) = match pile[..] {
        [covered] if covered == all(query) => return None,
        [covered] => {
            let v = (all(query) & !covered).trailing_zeros();
            (18, format!("vertex {} is not covered", (spelling.vertex)(v)))
        }
        _ => (15, format!("{} results are left over", pile.len())),
    };
    Some(Broken { operator: None, refusal, reason })
}

type Step = Result<(), (u8, String)>;

/// One operator on the pile of the sets that its results cover.
fn step(query: &Query, operator: Operator, pile: &mut Vec<VertexSet>, spelling: &Spelling) -> Step {
    match operator {
        Operator::Scan(i) => pile.push(ends(&query.edges[i as usize])),
        Operator::Extend(v) => match pile.last_mut() {
            Some(covered) => {
                extendable(query, v, *covered, spelling)?;
                *covered |= bit(v);
            }
            None => return Err((15, "extend has no result to extend".into())),
        },
        Operator::Join => match (pile.pop(), pile.pop()) {
            (Some(probe), Some(build)) => {
                joinable(query, build, probe, spelling)?;
                pile.push(build | probe);
            }
            _ => return Err((15, "join needs two results".into())),
        },
    }
    Ok(())
}

fn extendable(query: &Query, v: u32, covered: VertexSet, spelling: &Spelling) -> Step {
    if covered & bit(v) != 0 {
        return Err((16, format!("vertex {} is covered already", (spelling.vertex)(v))));
    }
    let joins = |e: &Edge| ends(e) & bit(v) != 0 && ends(e) & covered != 0;
    if !query.edges.iter().any(joins) {
        return Err((16, format!("no query edge joins vertex {} to a covered one", (spelling.vertex)(v))));
    }
    Ok(())
}

fn joinable(query: &Query, build: VertexSet, probe: VertexSet, spelling: &Spelling) -> Step {
    if build & probe == 0 {
        return Err((17, "the two results share no vertex".into()));
    }
    if build & !probe == 0 || probe & !build == 0 {
        return Err((17, "one result covers all vertices of the other".into()));
    }
    let lost = |e: &&Edge| inside(build | probe, e) && !inside(build, e) && !inside(probe, e);
    match query.edges.iter().find(lost) {
        Some(e) => Err((17, format!("query edge {} lies within neither result", (spelling.edge)(e)))),
        None => Ok(()),
    }
}

#[cfg(test)]
mod tests {
    use super::*;
    use crate::day::Days;
    use crate::packed::query::Vertex;
    use Operator::{Extend, Join, Scan};

    fn query(n: usize, pairs: &[(u32, u32)]) -> Query {
        let edges = pairs.iter().map(|&(source, target)| Edge { source, label: 1, target });
        let vertex = Vertex { label: 0, days: Days::ALL };
        Query::new(vec![vertex; n], edges.collect(), Vec::new())
    }

    fn diamond() -> Query {
        query(4, &[(0, 1), (0, 2), (1, 2), (1, 3), (2, 3)])
    }

    /// The operator that breaks a rule, and the refusal.
    fn first(query: &Query, operators: &[Operator]) -> Option<(Option<usize>, u8)> {
        let plan = Plan { operators: operators.to_vec() };
        let spelling = Spelling { vertex: &|v| v.to_string(), edge: &|e| e.to_string() };
        broken_rule(query, &plan, &spelling).map(|b| (b.operator, b.refusal))
    }

    #[test]
    fn connected_ignoring_direction() {
        assert!(is_connected(&diamond()));
        assert!(is_connected(&query(4, &[(1, 0), (2, 3), (3, 1)])));
        assert!(is_connected(&query(8, &[(7, 6), (6, 5), (5, 4), (4, 3), (3, 2), (2, 1), (1, 0)])));
        assert!(!is_connected(&query(4, &[(0, 1), (2, 3)])));
        assert!(!is_connected(&query(3, &[(1, 2)])));
    }

    #[test]
    fn plans_that_keep_the_rules() {
        assert_eq!(first(&diamond(), &[Scan(2), Extend(0), Extend(3)]), None);
        assert_eq!(first(&diamond(), &[Scan(2), Extend(0), Scan(2), Extend(3), Join]), None);
        assert_eq!(first(&query(3, &[(0, 1), (1, 2)]), &[Scan(0), Scan(1), Join]), None);
    }

    #[test]
    fn each_rule_broken() {
        let q = diamond();
        let at = |operator, refusal| Some((Some(operator), refusal));
        assert_eq!(first(&q, &[Extend(0)]), at(0, 15));
        assert_eq!(first(&q, &[Scan(0), Join]), at(1, 15));
        assert_eq!(first(&q, &[Scan(0), Scan(1)]), Some((None, 15)));
        assert_eq!(first(&q, &[Scan(0), Extend(1)]), at(1, 16));
        assert_eq!(first(&query(4, &[(0, 1), (1, 2), (2, 3)]), &[Scan(0), Extend(3)]), at(1, 16));
        assert_eq!(first(&q, &[Scan(0), Scan(4), Join]), at(2, 17));
        assert_eq!(first(&q, &[Scan(0), Extend(2), Scan(2), Join]), at(3, 17));
        assert_eq!(first(&q, &[Scan(0), Scan(1), Join]), at(2, 17));
        assert_eq!(first(&q, &[Scan(0), Extend(2)]), Some((None, 18)));
    }
}
