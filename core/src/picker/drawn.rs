//! The plan that the engine draws (request 5): whatever else is found is held against it.

use super::query::{Operator, Query};
use super::statistics::Statistics;

/// The scan of the query edge whose label has fewest data edges, then lowest index; then extends by the
/// vertex with most query edges to the covered ones, then lowest number.
pub fn drawn(query: &Query, statistics: &Statistics) -> Vec<Operator> {
    let count = |label: u32| statistics.edge_labels(label).map(|known| u64::from(known.count)).sum::<u64>();
    let scan = (0..query.edges.len()).min_by_key(|&i| count(query.edges[i].label)).unwrap_or(0);
    let mut set = query.edges[scan].ends();
    let mut plan = vec![Operator::Scan(scan)];
    // Of several with most edges the last is taken, so they come in falling order.
    while let Some(v) = (0..query.vertices())
        .rev()
        .filter(|&v| set >> v & 1 == 0 && query.used(set, v) != 0)
        .max_by_key(|&v| query.descriptors(set, v).len())
    {
        plan.push(Operator::Extend(v));
        set |= 1 << v;
    }
    plan
}
