//! Check plan against the judge's readers.
use judge::calls;
use judge::plan;
use judge::query::{Pair, Query, QueryEdge, EVER};
use judge::random::{each, Random};

/// Compares the answer; answers the refusal.
fn compare(r: &Random, query: &[u8], plan: &[u8]) -> u32 {
    let want = match Query::read(query).and_then(|query| plan::read(&query, plan)) {
        Err(refusal) => (refusal, 0),
        Ok(operators) => (0, operators.len() as u64),
    };
    let got = calls::check_plan(r, query, plan);
    assert_eq!(got, want);
    got.0
}

/// A query whose parts are not what they should be.
fn disturb(r: &Random, query: &mut Query) {
    let at = r.below(query.edges.len());
    let v = r.below(query.vertices());
    match r.below(11) {
        0 => query.edges[at].2 = 0,
        1 => query.edges[at].1 = query.edges[at].0,
        2 => query.edges[at].0 = r.below(8),
        3 => {
            let other = r.below(query.edges.len());
            query.edges.swap(at, other);
        }
        4 => drop(query.edges.remove(at)),
        5 => {
            let n = r.below(10);
            query.labels.resize(n, 0);
            query.days.resize(n, EVER);
        }
        6 => query.days[v] = (r.day(), r.day()),
        7 => query.days[v].0 = query.days[v].1.wrapping_add(1),
        8 => query.pairs.insert(r.below(query.pairs.len() + 1), (r.below(8), r.below(8))),
        9 => query.pairs = vec![(v, v)],
        _ => query.pairs.reverse(),
    }
}

#[test]
fn random_queries_and_plans_valid_and_damaged() {
    let mut seen = [0; 27];
    each(0..60_000, |r| {
        let mut query = Query::random(r, 8);
        let mut operators = plan::random(r, &query);
        if r.chance(1, 2) {
            plan::disturb(r, &query, &mut operators);
        }
        let mut plan = plan::file(&operators);
        if r.chance(1, 4) {
            disturb(r, &mut query);
        }
        let mut query = query.file();
        if r.chance(1, 6) {
            r.damage(&mut query);
        }
        if r.chance(1, 4) {
            r.damage(&mut plan);
        }
        seen[compare(r, &query, &plan) as usize] += 1;
    });
    assert!((6..19).chain([0, 25, 26]).all(|k| seen[k] > 50), "each answer is met often: {seen:?}");
}

#[test]
fn every_bit_and_every_length() {
    each(0..60, |r| {
        let query = Query::random(r, 8);
        let plan = plan::file(&plan::random(r, &query));
        let query = query.file();
        for bit in 0..8 * query.len() {
            let mut query = query.clone();
            query[bit / 8] ^= 128 >> (bit % 8);
            compare(r, &query, &plan);
        }
        for bit in 0..8 * plan.len() {
            let mut plan = plan.clone();
            plan[bit / 8] ^= 128 >> (bit % 8);
            compare(r, &query, &plan);
        }
        for len in 0..query.len() {
            compare(r, &query[..len], &plan);
        }
        for len in 0..plan.len() {
            compare(r, &query, &plan[..len]);
        }
    });
}

#[test]
fn limits_of_a_query() {
    each(0..1, |r| {
        let pairs: Vec<(usize, usize)> =
            (0..8).flat_map(|a| (0..8).filter(move |&b| a != b).map(move |b| (a, b))).collect();
        let plan = plan::file(&[plan::Operator::Scan(0)]);
        for (n, m, want) in [(8, 7, 18), (8, 24, 18), (8, 25, 8), (8, 0, 8), (9, 8, 8), (2, 1, 0), (1, 1, 8), (0, 1, 8)]
        {
            for label in [1, 0, 255] {
                let edges = pairs.iter().take(m).map(|&(a, b)| (a, b, label)).collect();
                let query = Query::as_given(vec![0; n], edges);
                assert_eq!(compare(r, &query.file(), &plan), want, "{n} vertices, {m} edges of label {label}");
            }
        }
    });
}

/// Every label between a pair, alone and with another after it: 0 is read like the others, and comes before them.
#[test]
fn labels_of_query_edges() {
    each(0..1, |r| {
        let plan = plan::file(&[plan::Operator::Scan(0)]);
        for (one, two) in (0..=255).flat_map(|one| [0, 1, 2, 254, 255].map(|two| (one, two))) {
            let query = |edges: &[QueryEdge]| Query::as_given(vec![0; 2], edges.to_vec()).file();
            assert_eq!(compare(r, &query(&[(0, 1, one)]), &plan), 0, "{one}");
            let want = if one < two { 0 } else { 10 };
            assert_eq!(compare(r, &query(&[(0, 1, one), (0, 1, two)]), &plan), want, "{one}, {two}");
            assert_eq!(compare(r, &query(&[(1, 1, one)]), &plan), 9, "{one}");
            assert_eq!(compare(r, &query(&[(0, 2, one)]), &plan), 9, "{one}");
            assert_eq!(compare(r, &query(&[(7, 0, one)]), &plan), 9, "{one}");
        }
    });
}

/// A first day above the last one is refused after the lengths, and before any fault of an edge; equal days stand.
#[test]
fn days_of_query_vertices() {
    each(0..1, |r| {
        let plan = plan::file(&[plan::Operator::Scan(0)]);
        for days in [(0, 0), (0, 65_535), (7, 7), (7, 8), (65_535, 65_535)] {
            let query = Query::plain(2, &[(0, 1)]).inspected(&[days, (3, 3)]);
            assert_eq!(compare(r, &query.file(), &plan), 0, "{days:?}");
        }
        let faulty: [(u32, &[QueryEdge]); 6] = [
            (18, &[(0, 1, 1), (1, 2, 1)]),
            (9, &[(1, 1, 1), (1, 2, 1)]),
            (9, &[(0, 7, 1), (1, 2, 1)]),
            (10, &[(1, 2, 1), (0, 1, 1)]),
            (10, &[(0, 1, 1), (0, 1, 1)]),
            (11, &[(0, 1, 1), (1, 0, 1)]),
        ];
        for (fault, edges) in faulty {
            let query = Query::as_given(vec![0; 3], edges.to_vec());
            assert_eq!(compare(r, &query.file(), &plan), fault, "{query:?}");
            for (v, days) in [(0, (1, 0)), (1, (8, 7)), (2, (65_535, 65_534)), (2, (65_535, 0))] {
                let mut query = query.clone();
                query.days[v] = days;
                late(r, &query.file(), &plan);
            }
        }
    });
}

/// The file of three vertices, one of which has a first day above its last, and of two edges.
fn late(r: &Random, file: &[u8], plan: &[u8]) {
    assert_eq!(compare(r, file, plan), 25, "{file:02x?}");
    assert_eq!(compare(r, file, &[]), 25, "{file:02x?}");
    for length in 0..file.len() {
        assert_eq!(compare(r, &file[..length], plan), 6, "{file:02x?}, {length} bytes");
    }
    assert_eq!(compare(r, &[file, &[0]].concat(), plan), 7, "{file:02x?}");
    // 9 + 3 × 48 + 2 × 14 + 4 bits: seven are left.
    for bit in 0..7 {
        let mut file = file.to_vec();
        *file.last_mut().unwrap() |= 1 << bit;
        assert_eq!(compare(r, &file, plan), 7, "{file:02x?}");
    }
    // Nine vertices, and none.
    for first in [0x91, 0x01] {
        assert_eq!(compare(r, &[&[first], &file[1..]].concat(), plan), 8, "{file:02x?}");
    }
}

/// A pair is of two vertices that the query has, and pairs ascend strictly: by the first, then the second.
#[test]
fn pairs_of_query_vertices() {
    each(0..1, |r| {
        let path = |n: usize| Query::plain(n, &(1..n).map(|v| (v - 1, v)).collect::<Vec<_>>());
        let all: Vec<Pair> = (0..8).flat_map(|low| (0..8).map(move |high| (low, high))).collect();
        for n in 2..=8 {
            let known = |&(low, high): &Pair| low < n && high < n && low != high;
            let read = |pairs: &[Pair]| compare(r, &path(n).paired(pairs).file(), &[]);
            for one in &all {
                assert_eq!(read(&[*one]), if known(one) { 12 } else { 26 }, "{n} vertices, {one:?}");
                for two in &all {
                    let want = if known(one) && known(two) && one < two { 12 } else { 26 };
                    assert_eq!(read(&[*one, *two]), want, "{n} vertices, {one:?}, {two:?}");
                }
            }
            // As many as go; the last is made faulty.
            let mut most: Vec<Pair> = all.iter().copied().filter(known).take(15).collect();
            assert_eq!(read(&most), 12, "{n} vertices, {most:?}");
            *most.last_mut().unwrap() = (0, 0);
            assert_eq!(read(&most), 26, "{n} vertices, {most:?}");
        }
    });
}

/// A faulty pair is refused after the lengths, the days and all edges, and before an unconnected query.
#[test]
fn the_place_of_pairs() {
    each(0..1, |r| {
        let plan = plan::file(&[plan::Operator::Scan(0)]);
        let before: [(u32, &[QueryEdge]); 6] = [
            (26, &[(0, 1, 1), (1, 2, 1)]),
            (26, &[(0, 1, 1), (1, 0, 1)]),
            (9, &[(0, 1, 1), (2, 2, 1)]),
            (9, &[(0, 1, 1), (0, 7, 1)]),
            (10, &[(1, 2, 1), (0, 1, 1)]),
            (10, &[(0, 1, 1), (0, 1, 1)]),
        ];
        let faulty: [&[Pair]; 5] = [&[(1, 1)], &[(3, 0)], &[(0, 1), (0, 1)], &[(1, 0), (0, 1)], &[(0, 1), (7, 7)]];
        for (want, edges) in before {
            for pairs in faulty {
                let query = Query::as_given(vec![0; 3], edges.to_vec()).paired(pairs);
                assert_eq!(compare(r, &query.file(), &plan), want, "{query:?}");
                assert_eq!(compare(r, &query.file(), &[]), want, "{query:?}");
                let late = query.inspected(&[EVER, EVER, (2, 1)]);
                assert_eq!(compare(r, &late.file(), &plan), 25, "{late:?}");
            }
        }
        let apart = Query::plain(3, &[(0, 1), (1, 0)]).paired(&[(0, 1), (1, 0)]);
        assert_eq!(compare(r, &apart.file(), &plan), 11);
    });
}

/// 6 at every byte before the end, whatever the pairs, and 7 for a byte or a fill bit more, for every count; count and pairs may begin
/// anywhere in a byte.
#[test]
fn lengths_of_pairs() {
    each(0..1, |r| {
        let all: Vec<Pair> = (0..4).flat_map(|a| (0..3).map(move |b| (a, b + usize::from(a <= b)))).collect();
        for (edges, count) in (3..11).flat_map(|edges| (0..=15).map(move |count| (edges, count))) {
            let edges: Vec<QueryEdge> = all.iter().take(edges).map(|&(a, b)| (a, b, 1)).collect();
            let bits = 9 + 4 * 48 + 14 * edges.len() + 4 + 6 * count;
            for (pairs, want) in [(vec![(2, 2); count], 26), (all.iter().copied().take(count).collect(), 12)] {
                if pairs.len() < count {
                    continue;
                }
                let file = Query::as_given(vec![0; 4], edges.clone()).paired(&pairs).file();
                assert_eq!(file.len(), bits.div_ceil(8));
                assert_eq!(compare(r, &file, &[]), if count == 0 { 12 } else { want }, "{file:02x?}");
                for length in 0..file.len() {
                    assert_eq!(compare(r, &file[..length], &[]), 6, "{file:02x?}, {length} bytes");
                }
                assert_eq!(compare(r, &[&file[..], &[0]].concat(), &[]), 7, "{file:02x?}");
                for bit in 0..8 * file.len() - bits {
                    let mut file = file.clone();
                    *file.last_mut().unwrap() |= 1 << bit;
                    assert_eq!(compare(r, &file, &[]), 7, "{file:02x?}");
                }
            }
        }
    });
}

#[test]
fn bytes_of_any_kind() {
    each(0..40_000, |r| {
        let file = |most: usize| -> Vec<u8> { (0..r.below(most)).map(|_| r.next() as u8).collect() };
        let (query, plan) = (file(60), file(12));
        compare(r, &query, &plan);
        let query = Query::random(r, 8).file();
        compare(r, &query, &plan);
    });
}
