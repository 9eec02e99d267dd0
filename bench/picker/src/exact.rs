//! The exact work of an ordering: its rows are made one operator after the other, and what each takes is
//! counted.
use crate::picker::extension::{Extending, Portions, Row};
use crate::picker::numbers::Random;
use crate::picker::query::{Operator, Query, MAX_VERTICES};
use crate::picker::store::Store;
use crate::picker::time::{is_early, Part, Work};

/// The work of an ordering with the cache on, and the rows of its operators; nothing above so many rows, or
/// for a plan with a join.
pub fn work(store: &Store, query: &Query, plan: &[Operator], most: usize) -> Option<(Work, Vec<usize>)> {
    let mut work = Work::default();
    let (mut rows, mut counts): (Vec<Row>, Vec<usize>) = (Vec::new(), Vec::new());
    let mut set = 0;
    for operator in plan {
        match *operator {
            Operator::Scan(i) => {
                let edge = query.edges[i];
                set = edge.ends();
                work.put(Part::Vertex, store.vertices() as f64);
                let sources =
                    (0..store.vertices() as u32).filter(|&x| store.fits(&query.filters[edge.from], x));
                // A source is passed over where its list lacks the label of the first edge between the ends.
                let first = query.descriptors(1 << edge.from, edge.to)[0];
                let (looked, passed): (Vec<u32>, Vec<u32>) =
                    sources.partition(|&x| !store.portion(first.direction, x, first.label).is_empty());
                work.put(Part::Passed, passed.len() as f64);
                let sources: Vec<Row> =
                    looked.iter().map(|&x| with(&[u32::MAX; MAX_VERTICES], edge.from, x)).collect();
                rows = extended(store, query, 1 << edge.from, edge.to, &sources, most, &mut work)?;
            }
            Operator::Extend(v) => {
                rows = extended(store, query, set, v, &rows, most, &mut work)?;
                if is_early(set, v) {
                    work.put(Part::Early, rows.len() as f64);
                }
                set |= 1 << v;
            }
            Operator::Join => return None,
        }
        work.put(Part::Word, rows.len() as f64 * f64::from(set.count_ones()));
        counts.push(rows.len());
    }
    work.put(Part::List, (rows.len() * query.vertices()) as f64);
    Some((work, counts))
}

fn with(row: &Row, v: usize, x: u32) -> Row {
    let mut row = *row;
    row[v] = x;
    row
}

fn extended(
    store: &Store,
    query: &Query,
    set: u32,
    v: usize,
    rows: &[Row],
    most: usize,
    work: &mut Work,
) -> Option<Vec<Row>> {
    // The set that the cache keeps is that before striking: it is looked up as if nothing were covered.
    let mut looking = Extending::new(query, set, v);
    looking.strike_nothing();
    let striking = Extending::new(query, set, v);
    let (mut random, mut portions) = (Random::new(), Portions::default());
    let (mut out, mut kept): (Vec<Row>, Vec<u32>) = (Vec::new(), Vec::new());
    let mut before: Option<&Row> = None;
    for row in rows {
        let same = |last: &Row| looking.descriptors.iter().all(|d| last[d.vertex] == row[d.vertex]);
        if before.map_or(false, same) {
            work.put(Part::Cached, 1.0);
            work.put(Part::Kept, kept.len() as f64);
        } else {
            kept.clear();
            looking.look(store, row, usize::MAX, &mut random, &mut portions, &mut kept, work);
            kept.sort_unstable();
        }
        before = Some(row);
        out.extend(kept.iter().filter(|&&x| striking.permits(row, x)).map(|&x| with(row, v, x)));
        if out.len() > most {
            return None;
        }
    }
    Some(out)
}
