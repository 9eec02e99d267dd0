//! Plans, their files and their rules.
use super::bits::{pack, Reader};
use super::query::Query;
use super::random::Random;

#[derive(Clone, Copy, Debug, PartialEq, Eq)]
pub enum Operator {
    Scan(usize),
    Extend(usize),
    Join,
    /// Kind 3, which is refused.
    Unknown,
}

use Operator::{Extend, Join, Scan, Unknown};

pub fn file(plan: &[Operator]) -> Vec<u8> {
    let mut fields = vec![(plan.len() as u64, 5)];
    for operator in plan {
        match *operator {
            Scan(edge) => fields.extend([(0, 2), (edge as u64, 5)]),
            Extend(vertex) => fields.extend([(1, 2), (vertex as u64, 3)]),
            Join => fields.push((2, 2)),
            Unknown => fields.push((3, 2)),
        }
    }
    pack(fields)
}

/// Refusals 12 to 18, or the plan.
pub fn read(query: &Query, file: &[u8]) -> Result<Vec<Operator>, u32> {
    let mut reader = Reader::new(file);
    let mut field = |width| reader.field(width).map(|x| x as usize).ok_or(12u32);
    let count = field(5)?;
    if count == 0 {
        return Err(14);
    }
    let mut plan = Vec::new();
    for _ in 0..count {
        plan.push(match field(2)? {
            0 => Scan(field(5)?),
            1 => Extend(field(3)?),
            2 => Join,
            _ => return Err(14),
        });
        match plan[plan.len() - 1] {
            Scan(edge) if edge >= query.edges.len() => return Err(14),
            Extend(vertex) if vertex >= query.vertices() => return Err(14),
            _ => (),
        }
    }
    if !reader.ends() {
        return Err(13);
    }
    follow(query, &plan)?;
    Ok(plan)
}

/// The rules, over a pile of sets of query vertices.
fn follow(query: &Query, plan: &[Operator]) -> Result<(), u32> {
    let mut pile: Vec<Vec<usize>> = Vec::new();
    for operator in plan {
        let covered = match *operator {
            Scan(edge) => vec![query.edges[edge].0, query.edges[edge].1],
            Extend(vertex) => {
                let set = pile.pop().ok_or(15u32)?;
                if set.contains(&vertex) || !query.touches(vertex, &set) {
                    return Err(16);
                }
                [set, vec![vertex]].concat()
            }
            Join => {
                if pile.len() < 2 {
                    return Err(15);
                }
                let (probe, build) = (pile.pop().unwrap(), pile.pop().unwrap());
                joined(query, &build, &probe).ok_or(17u32)?
            }
            Unknown => unreachable!("the file was read"),
        };
        pile.push(covered);
    }
    if pile.len() > 1 {
        return Err(15);
    }
    if (0..query.vertices()).any(|v| !pile[0].contains(&v)) {
        return Err(18);
    }
    Ok(())
}

/// The union of a join's sides, if its rules hold.
fn joined(query: &Query, build: &[usize], probe: &[usize]) -> Option<Vec<usize>> {
    let both = |v: &usize| build.contains(v) && probe.contains(v);
    let lies_in = |set: &[usize], a: &usize, b: &usize| set.contains(a) && set.contains(b);
    let union: Vec<usize> = (0..query.vertices()).filter(|v| build.contains(v) || probe.contains(v)).collect();
    let shares = union.iter().any(both);
    let own = build.iter().any(|v| !probe.contains(v)) && probe.iter().any(|v| !build.contains(v));
    let lost =
        query.edges.iter().any(|(a, b, _)| lies_in(&union, a, b) && !lies_in(build, a, b) && !lies_in(probe, a, b));
    (shares && own && !lost).then_some(union)
}

/// A scan and extends until the result covers so many vertices, or can't grow.
fn grow(r: &Random, query: &Query, cover: usize, plan: &mut Vec<Operator>) {
    let edge = r.below(query.edges.len());
    let mut set = vec![query.edges[edge].0, query.edges[edge].1];
    plan.push(Scan(edge));
    while set.len() < cover {
        let next: Vec<usize> = (0..query.vertices()).filter(|&v| !set.contains(&v) && query.touches(v, &set)).collect();
        if next.is_empty() {
            return;
        }
        let v = next[r.below(next.len())];
        plan.push(Extend(v));
        set.push(v);
    }
}

/// An accepted plan, with joins where some are found.
pub fn random(r: &Random, query: &Query) -> Vec<Operator> {
    let n = query.vertices();
    if n > 2 && r.chance(2, 3) {
        for _ in 0..60 {
            let mut plan = Vec::new();
            let sides = 2 + usize::from(r.chance(1, 4));
            for _ in 0..sides {
                grow(r, query, 2 + r.below(n - 1), &mut plan);
            }
            plan.extend(vec![Join; sides - 1]);
            plan.extend((0..r.below(3)).map(|_| Extend(r.below(n))));
            if plan.len() <= 31 && follow(query, &plan).is_ok() {
                return plan;
            }
        }
    }
    let mut plan = Vec::new();
    grow(r, query, n, &mut plan);
    plan
}

/// A plan with two joins or more, in any shape: build sides may wait for each other, and joins and extends may follow any of them. None where
/// none was found.
pub fn bushy(r: &Random, query: &Query) -> Option<Vec<Operator>> {
    let joins = |plan: &[Operator]| plan.iter().filter(|&&operator| operator == Join).count();
    (0..60).map(|_| any_shape(r, query)).find(|plan| joins(plan) > 1 && follow(query, plan).is_ok())
}

/// Operators that find what they need, until one result covers all, or there are many.
fn any_shape(r: &Random, query: &Query) -> Vec<Operator> {
    let (mut plan, mut pile): (Vec<Operator>, Vec<Vec<usize>>) = (Vec::new(), Vec::new());
    while plan.len() < 20 && (pile.len() != 1 || pile[0].len() < query.vertices()) {
        let union = match &pile[..] {
            [.., build, probe] => joined(query, build, probe),
            _ => None,
        };
        let next: Vec<usize> = match pile.last() {
            Some(top) => (0..query.vertices()).filter(|v| !top.contains(v) && query.touches(*v, top)).collect(),
            None => Vec::new(),
        };
        match union {
            Some(union) if r.chance(2, 3) => {
                pile.truncate(pile.len() - 2);
                pile.push(union);
                plan.push(Join);
            }
            _ if !next.is_empty() && r.chance(1, 3) => {
                let v = next[r.below(next.len())];
                pile.last_mut().unwrap().push(v);
                plan.push(Extend(v));
            }
            _ => {
                let edge = r.below(query.edges.len());
                pile.push(vec![query.edges[edge].0, query.edges[edge].1]);
                plan.push(Scan(edge));
            }
        }
    }
    plan
}

/// Changes operators so that some rule is likely broken.
pub fn disturb(r: &Random, query: &Query, plan: &mut Vec<Operator>) {
    for _ in 0..1 + r.below(2) {
        let at = r.below(plan.len());
        match r.below(6) {
            0 => plan[at] = Join,
            1 => plan[at] = Extend(r.below(8)),
            2 => plan.insert(at, Scan(r.below(query.edges.len() + 1))),
            3 => plan[at] = Unknown,
            4 if plan.len() > 1 => drop(plan.remove(at)),
            _ => plan.push(Join),
        }
    }
    plan.truncate(31);
}
