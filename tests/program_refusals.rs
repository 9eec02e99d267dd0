//! The program `trace`: every refusal that it can give.
use judge::bits::pack;
use judge::graph::{Edge, Graph};
use judge::hangs::{extend, files, join, scan, sets, sized, stretched, with, worked};
use judge::plan::Operator;
use judge::program::{run, Files, MAX_BYTES};
use judge::query::{Pair, Query, QueryEdge};
use judge::worked::{diamond, g, triangle};
use std::collections::BTreeSet;
use Operator::{Extend, Join, Scan, Unknown};

/// A refusal, and files that get it.
type Refused = (u32, Files);

/// Files of which every cut is too short, and a further byte or a fill bit too much.
fn cut_and_stretched(at: usize, fill: u32, short: u32, long: u32) -> Vec<Refused> {
    let file = &worked()[at];
    let mut cases: Vec<(u32, Vec<u8>)> = (0..file.len()).map(|length| (short, file[..length].to_vec())).collect();
    cases.push((long, stretched(file, file.len() + 1)));
    for bit in 0..fill {
        let mut file = file.clone();
        *file.last_mut().unwrap() |= 1 << bit;
        cases.push((long, file));
    }
    cases.into_iter().map(|(refusal, file)| (refusal, with(at, file))).collect()
}

fn of_load() -> Vec<Refused> {
    let file = |edges: &[Edge]| Graph::as_given(vec![0; 4], edges.to_vec()).file();
    let mut late = sized(342, 1_363);
    late.edges[1_362].1 = 0;
    let mut cases = cut_and_stretched(0, 4, 1, 2);
    for (refusal, file) in [
        (1, vec![0, 1, 0, 0, 0]),
        (1, vec![255; MAX_BYTES]),
        (3, file(&[(0, 1, 1), (4, 1, 0)])),
        (3, file(&[(0, 1, 4)])),
        (3, file(&[(0, 1, 65_535)])),
        (3, file(&[(0, 0, 1)])),
        (3, file(&[(0, 1, 4), (0, 1, 1)])),
        (3, late.file()),
        (4, file(&[(0, 1, 1), (0, 1, 1)])),
        (4, file(&[(0, 1, 2), (0, 1, 1)])),
        (4, file(&[(0, 2, 1), (0, 1, 2)])),
        (4, file(&[(1, 1, 1), (0, 2, 2)])),
        (4, file(&[(0, 1, 2), (0, 1, 1), (0, 1, 4)])),
        (5, sized(342, 1_363).file()),
    ] {
        cases.push((refusal, with(0, file)));
    }
    cases
}

fn of_read_query() -> Vec<Refused> {
    let query = |n: usize, edges: &[QueryEdge]| Query::as_given(vec![0; n], edges.to_vec());
    let file = |n: usize, edges: &[QueryEdge]| query(n, edges).file();
    let late = |n: usize, edges: &[QueryEdge]| Query { days: vec![(6, 5); n], ..query(n, edges) }.file();
    let paired = |n: usize, edges: &[QueryEdge], pairs: &[Pair]| query(n, edges).paired(pairs).file();
    let path = &[(0, 1, 1), (1, 2, 1)];
    let all: Vec<QueryEdge> = (0..5).flat_map(|a| (0..5).map(move |b| (a, b + usize::from(a <= b), 1))).collect();
    let mut cases = cut_and_stretched(1, 1, 6, 7);
    for (refusal, file) in [
        (8, pack([(0, 4), (1, 5)])),
        (8, pack([(1, 4), (1, 5)])),
        (8, pack([(2, 4), (0, 5)])),
        (8, file(1, &[(0, 1, 1)])),
        (8, file(9, &[(0, 1, 1)])),
        (8, file(15, &[(0, 1, 1)])),
        (8, file(6, &[])),
        (8, file(6, &all[..25])),
        (9, file(3, &[(0, 1, 1), (0, 3, 1)])),
        (9, file(3, &[(3, 0, 1)])),
        (9, file(3, &[(1, 1, 1)])),
        (9, file(3, &[(1, 1, 0)])),
        (9, file(3, &[(0, 1, 0), (0, 3, 0)])),
        (9, file(3, &[(2, 2, 1), (0, 1, 1)])),
        (10, file(3, &[(0, 1, 1), (0, 1, 1)])),
        (10, file(3, &[(0, 1, 2), (0, 1, 1)])),
        (10, file(3, &[(0, 1, 1), (0, 1, 0)])),
        (10, file(3, &[(0, 1, 0), (0, 1, 0)])),
        (10, file(3, &[(0, 2, 1), (0, 1, 2)])),
        (10, file(3, &[(1, 2, 1), (0, 1, 1), (2, 2, 1)])),
        (11, file(3, &[(0, 1, 1)])),
        (11, file(3, &[(0, 1, 0)])),
        (11, file(3, &[(0, 1, 0), (0, 1, 1)])),
        (11, file(4, &[(0, 1, 1), (2, 3, 1)])),
        (25, late(3, &[(0, 1, 1), (1, 2, 1)])),
        (25, late(3, &[(1, 1, 1), (0, 1, 1)])),
        (25, late(3, &[(0, 1, 1)])),
        (8, late(9, &[(0, 1, 1)])),
        (26, paired(3, path, &[(1, 1)])),
        (26, paired(3, path, &[(0, 3)])),
        (26, paired(3, path, &[(0, 1), (7, 0)])),
        (26, paired(3, path, &[(0, 1), (0, 1)])),
        (26, paired(3, path, &[(0, 2), (0, 1)])),
        (26, paired(3, path, &[(1, 0), (0, 1)])),
        (26, paired(3, &[(0, 1, 1)], &[(2, 2)])),
        (9, paired(3, &[(0, 1, 1), (2, 2, 1)], &[(2, 2)])),
        (10, paired(3, &[(0, 1, 1), (0, 1, 1)], &[(2, 2)])),
        (25, Query { days: vec![(6, 5); 3], ..query(3, path).paired(&[(2, 2)]) }.file()),
        (11, paired(3, &[(0, 1, 1)], &[(0, 1), (1, 0)])),
    ] {
        cases.push((refusal, with(1, file)));
    }
    // Cut within the pairs, or before their count: a good pair is to come, or a bad one.
    for pairs in [vec![(0, 1), (1, 2), (2, 0)], vec![(1, 1); 15]] {
        let file = paired(3, path, &pairs);
        // 9 + 3 × 48 + 2 × 14 bits come before the count.
        let cuts = (181 / 8..file.len()).map(|length| (6, with(1, file[..length].to_vec())));
        cases.extend(cuts);
        cases.push((7, with(1, stretched(&file, file.len() + 1))));
    }
    cases
}

fn of_check_plan() -> Vec<Refused> {
    let apart = Query::plain(5, &[(0, 1), (1, 4), (2, 3), (3, 4)]);
    let complete = Query::plain(8, &(0..24).map(|i| (i / 7, i % 7 + usize::from(i / 7 <= i % 7))).collect::<Vec<_>>());
    assert_eq!(complete.edges.len(), 24);
    let mut cases = cut_and_stretched(2, 7, 12, 13);
    cases.push((12, with(2, pack([(31, 5), (0, 2), (0, 5)]))));
    cases.push((14, with(2, pack([(0, 5)]))));
    for (refusal, query, operators) in [
        (14, triangle(), &[Scan(0), Unknown][..]),
        (14, triangle(), &[Scan(3)]),
        (14, triangle(), &[Scan(0), Extend(3)]),
        (15, triangle(), &[Extend(2)]),
        (15, triangle(), &[Scan(0), Join]),
        (15, triangle(), &[Scan(0), Extend(2), Scan(0)]),
        (16, triangle(), &[Scan(0), Extend(1)]),
        (16, apart.clone(), &[Scan(0), Extend(2)]),
        (17, apart, &[Scan(0), Scan(2), Join]),
        (17, triangle(), &[Scan(0), Extend(2), Scan(0), Join]),
        (17, triangle(), &[Scan(0), Scan(0), Extend(2), Join]),
        (17, diamond(), &[Scan(0), Extend(3), Scan(1), Extend(3), Join]),
        (18, triangle(), &[Scan(0)]),
        (18, complete, &[Scan(23)]),
    ] {
        cases.push((refusal, files(&g(), &query, operators)));
    }
    cases
}

/// Needs of more than 2,048 words, also where the rows have more; then rows that do.
fn of_run() -> Vec<Refused> {
    let scratch = [sets(507, 508), join(511, 2, 2), join(511, 30, 23)];
    let list = [scan(1_025), extend(23, 30), extend(40, 39), join(510, 30, 23)];
    scratch.map(|files| (20, files)).into_iter().chain(list.map(|files| (21, files))).collect()
}

/// Each refusal that the program can give. Not 19, since Run gets the store that Load wrote; nor 22, since it lends 31 records; nor 30 in a
/// time that one would wait for.
#[test]
fn every_refusal() {
    let mut seen = BTreeSet::new();
    for (refusal, files) in [of_load(), of_read_query(), of_check_plan(), of_run()].concat() {
        assert_eq!(run(&files), format!("refused {refusal}\n"), "{files:02x?}");
        seen.insert(refusal);
    }
    assert_eq!(seen.into_iter().collect::<Vec<_>>(), (1..=18).chain([20, 21, 25, 26]).collect::<Vec<_>>());
}
