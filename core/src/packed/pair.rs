//! Pairs of query vertices: the first's item number must be below the second's.

use std::fmt;

use crate::packed::edge::FileFault;

/// What stands between the vertices of a pair in the text form.
pub const BELOW: &str = "<";

/// A pair. Pairs ascend by the first vertex, then the second.
#[derive(Clone, Copy, Debug, PartialEq, Eq, PartialOrd, Ord, Hash)]
pub struct Pair {
    pub low: u32,
    pub high: u32,
}

impl fmt::Display for Pair {
    fn fmt(&self, f: &mut fmt::Formatter) -> fmt::Result {
        write!(f, "{} {BELOW} {}", self.low, self.high)
    }
}

/// The first fault in the pairs of a query of n vertices.
pub fn first_fault(pairs: &[Pair], n: usize) -> Option<FileFault> {
    let fault = |i: usize, p: &Pair| match () {
        _ if p.low.max(p.high) as usize >= n => Some(format!("pair {p}: no such vertex")),
        _ if p.low == p.high => Some(format!("pair {p}: equal vertices")),
        _ if i > 0 && pairs[i - 1] >= *p => Some(format!("pair {p} does not ascend")),
        _ => None,
    };
    let reason = pairs.iter().enumerate().find_map(|(i, p)| fault(i, p))?;
    Some(FileFault::new(26, reason))
}

/// The index of the first pair that contradicts those before it: they put its second vertex below
/// its first. Then no items satisfy them all.
pub fn contradiction(pairs: &[Pair]) -> Option<usize> {
    (0..pairs.len()).find(|&i| is_above(&pairs[..i], pairs[i].high, pairs[i].low))
}

/// The pairs, one after the other, lead from a vertex up to another.
fn is_above(pairs: &[Pair], low: u32, high: u32) -> bool {
    let mut reached = vec![low];
    for _ in pairs {
        for p in pairs {
            if reached.contains(&p.low) && !reached.contains(&p.high) {
                reached.push(p.high);
            }
        }
    }
    reached.contains(&high)
}
