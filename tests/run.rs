//! Run against matches found by backtracking, and the rules on order, cost and need.
use judge::calls::{self, Input};
use judge::compare::Case;
use judge::damaged;
use judge::graph::Graph;
use judge::plan;
use judge::query::Query;
use judge::random::{each, Random};

#[test]
fn small_graphs() {
    let (mut rows, mut joins, mut skipped) = (0, 0, 0);
    each(0..40_000, |r| {
        let graph = Graph::random(r, 12);
        match Case::random(r, graph, 8, 3_000) {
            Some(case) => {
                case.compare_lengths(r);
                rows += case.want.count;
                joins += usize::from(case.want.build + case.want.probe > 0);
            }
            None => skipped += 1,
        }
    });
    assert!(rows > 100_000 && joins > 2_000 && skipped < 400, "{rows} rows, {joins} joins, {skipped} skipped");
}

#[test]
fn middling_graphs() {
    let (mut rows, mut skipped) = (0, 0);
    each(0..600, |r| {
        let graph = Graph::random(r, 300);
        match Case::random(r, graph, 5, 30_000) {
            Some(case) => {
                case.compare_lengths(r);
                rows += case.want.count;
            }
            None => skipped += 1,
        }
    });
    assert!(rows > 100_000 && skipped < 100, "{rows} rows, {skipped} skipped");
}

/// Thousands of edges, with vertices of many neighbours, so that lists are sought in by blocks and by steps that double.
#[test]
fn large_graphs() {
    let mut rows = 0;
    each(0..40, |r| {
        let n = 1_000 + r.below(3_000);
        let kinds = 1 + r.below(if r.chance(1, 4) { 255 } else { 3 });
        let end = |r: &Random| (n as f64 * (r.below(1 << 20) as f64 / (1u64 << 20) as f64).powi(3)) as u16;
        let edges = (0..4 * n).map(|_| (end(r), 1 + r.below(kinds) as u8, end(r))).collect();
        let graph = Graph::new(vec![0; n], edges);
        let mut triangle = Query::new(vec![0; 3], vec![(0, 1, 1), (0, 2, 1), (1, 2, 1 + r.below(kinds) as u8)]);
        if r.chance(1, 2) {
            // Some edges of any label, or all; else one beside the edge of its pair.
            match r.below(3) {
                0 => triangle.edges.iter_mut().for_each(|edge| edge.2 = 0),
                1 => triangle.edges.iter_mut().filter(|_| r.chance(1, 2)).for_each(|edge| edge.2 = 0),
                _ => triangle.edges.insert(1, (0, 2, 0)),
            }
        }
        let operators = plan::random(r, &triangle);
        let cache = r.chance(1, 2);
        let Some(case) = Case::new(graph, triangle, operators, cache, 1 << 21) else { return };
        rows += case.want.count;
        case.compare_lengths(r);
    });
    assert!(rows > 100_000, "{rows} rows");
}

/// Every scratch and every list length from 0 to beyond the need.
#[test]
fn every_length() {
    let mut seen = [0; 22];
    each(0..600, |r| {
        let graph = Graph::random(r, 9);
        let Some(case) = Case::random(r, graph, 5, 40) else { return };
        for scratch in 0..case.want.need + 4 {
            let more = r.below(3);
            seen[case.compare(r, scratch, case.want.rows.len() + more) as usize] += 1;
        }
        for list in 0..case.want.rows.len() + 4 {
            let more = r.below(3);
            seen[case.compare(r, case.want.need + more, list) as usize] += 1;
        }
    });
    assert!(seen[0] > 1_000 && seen[20] > 1_000 && seen[21] > 1_000, "{seen:?}");
}

/// Every number of records from none to that of the operators and beyond, in any scratch and list.
#[test]
fn every_number_of_records() {
    let mut seen = [0; 23];
    each(0..400, |r| {
        let graph = Graph::random(r, 6);
        let Some(case) = Case::random(r, graph, 5, 40) else { return };
        for records in 0..case.want.records.len() + 4 {
            let (scratch, list) = (case.want.need, case.want.rows.len());
            seen[case.compare_recording(r, scratch, list, records) as usize] += 1;
            let (scratch, list) = (r.below(scratch + 2), r.below(list + 2));
            seen[case.compare_recording(r, scratch, list, records) as usize] += 1;
        }
    });
    assert!(seen[0] > 1_000 && seen[22] > 1_000, "{seen:?}");
}

/// Damaged queries and plans are refused as Check plan refuses them, before the records are counted and the store is looked at.
#[test]
fn refused_files() {
    let mut seen = [0; 27];
    each(0..10_000, |r| {
        let (query, plan) = damaged::query_and_plan(r);
        let records = r.below(12);
        let refusal = match Query::read(&query).and_then(|query| plan::read(&query, &plan)) {
            Err(refusal) => refusal,
            Ok(operators) if records < operators.len() => 22,
            Ok(_) => 19,
        };
        let count = r.below(40);
        let store = r.words(count);
        let (scratch, list) = (r.below(30), r.below(30));
        let input = Input { store: &store, query: &query, plan: &plan, cache: true };
        let got = calls::run_recording(r, &input, scratch, list, records);
        assert_eq!(got.refusal, refusal);
        seen[refusal as usize] += 1;
    });
    assert!((6..20).filter(|&k| seen[k] > 0).count() >= 12 && seen[22] > 500, "{seen:?}");
}

/// Scratch and list past 1,073,741,824 words are left alone. Takes 5 GB: run with `--ignored`.
#[test]
#[ignore]
fn lengths_past_the_counted_one() {
    let graph = Graph::new(vec![0; 4], vec![(0, 1, 1), (0, 1, 2), (1, 1, 2), (1, 1, 3), (2, 1, 3)]);
    let query = Query::plain(3, &[(0, 1), (0, 2), (1, 2)]);
    let plan = plan::file(&[plan::Operator::Scan(0), plan::Operator::Extend(2)]);
    let mut scratch = vec![0; rizhavaan::MAX_WORDS + 8];
    let mut list = vec![0; rizhavaan::MAX_WORDS + 8];
    scratch[5] = 7;
    scratch[rizhavaan::MAX_WORDS..].fill(9);
    list[6..12].fill(8);
    let records = &mut [rizhavaan::Record::default(); 2];
    let answer =
        rizhavaan::run(&graph.store(), &query.file(), &plan, rizhavaan::Cache::On, &mut scratch, &mut list, records)
            .unwrap();
    assert_eq!((answer.rows, answer.cost), (2, 13));
    assert!(scratch[..rizhavaan::MAX_WORDS].iter().all(|&word| word == 0));
    assert!(scratch[rizhavaan::MAX_WORDS..].iter().all(|&word| word == 9));
    assert_eq!(list[..12], [0, 1, 2, 1, 2, 3, 8, 8, 8, 8, 8, 8]);
}
