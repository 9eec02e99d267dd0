//! Pairs of query vertices: their text form, their bits, and what is said of those that break the
//! rules or contradict each other.

mod common;

use common::{parse, refused, Parsed};
use rizhavaan_core::packed::bits::BitWriter;
use rizhavaan_core::packed::edge::FileFault;
use rizhavaan_core::packed::pair::{contradiction, Pair};
use rizhavaan_core::packed::query::Query;

/// A path of vertices a, b, c and 3, with these lines after it: the first is line 7.
fn path(lines: &str) -> String {
    let edges = "a -1-> b\nb -1-> c\nc -1-> 3\n";
    format!("[query]\nvertex a\nvertex b\nvertex c\nvertices 1\n{edges}{lines}")
}

fn parsed(lines: &str) -> Parsed {
    let text = path(lines);
    parse(text.as_bytes()).expect(&text)
}

fn pairs(lines: &str) -> Vec<(u32, u32)> {
    let query = parsed(lines).hang.query.unwrap();
    query.pairs.iter().map(|p| (p.low, p.high)).collect()
}

/// The warning for the lines, if there is one.
fn warning(lines: &str) -> Option<String> {
    parsed(lines).warning.map(|note| note.to_string())
}

#[test]
fn pairs_are_sorted_and_come_back() {
    assert_eq!(pairs(""), []);
    assert_eq!(pairs("a < b\n"), [(0, 1)]);
    assert_eq!(pairs("3 < a # here\n b  <  c\n"), [(1, 2), (3, 0)]);
    assert_eq!(pairs("b < a\na < 3\na < b\na < 2\n"), [(0, 1), (0, 2), (0, 3), (1, 0)]);
    let hang = parsed("3 < a\nb < c\n").hang;
    let unpacked = "[query]\nvertices 4 label 0  # 0 to 3\n\
                    0 -1-> 1\n1 -1-> 2\n2 -1-> 3\n1 < 2\n3 < 0\n";
    assert_eq!(hang.clone().to_text(None).unwrap(), unpacked);
    assert_eq!(parse(unpacked.as_bytes()).unwrap().hang, hang);
    let bytes = hang.query.as_ref().unwrap().to_bytes();
    assert_eq!(Query::from_bytes(&bytes), Ok(hang.query.unwrap()));
}

/// A pair may stand before the edges, and beside a plan.
#[test]
fn pairs_among_other_lines() {
    let text = "[query]\nvertices 2\n1 < 0\n0 -1-> 1\n[plan]\nscan 0\n";
    let hang = parse(text.as_bytes()).unwrap().hang;
    assert_eq!(hang.query.unwrap().pairs, [Pair { low: 1, high: 0 }]);
    assert!(hang.plan.is_some());
}

#[test]
fn faulty_pairs() {
    for (line, message) in [
        ("a < a", "a pair has two different vertices"),
        ("3 < 3", "a pair has two different vertices"),
        ("a < 4", "no vertex '4' has been declared"),
        ("d < a", "no vertex 'd' has been declared"),
        ("b < c", "the pair stands at line 9 already"),
        ("1 < 2", "the pair stands at line 9 already"),
    ] {
        assert_eq!(refused(&path(&format!("b < c\n{line}\n"))), format!("10: {message}"));
    }
    for line in ["a<b", "a < b < c", "a > b", "a <= b", "a <", "< a b"] {
        let message = refused(&path(&format!("{line}\n")));
        let arrow = line == "a > b" && message == "9: '>' is no arrow -LABEL->";
        let expected = message.starts_with("9: expected a vertex 'NAME: KIND'") && message.contains("; a pair 'A < B'");
        assert!(arrow || expected, "{message}");
    }
    let graph = "[graph]\nvertices 2\n0 < 1\n";
    assert_eq!(refused(graph), "3: a pair 'A < B' is for query vertices");
    let unknown = refused("[graph]\nvertices 2 x y\n");
    assert!(!unknown.contains("pair"), "{unknown}");
}

/// The first so many of the pairs of different vertices among six.
fn some_pairs(count: usize) -> Vec<(u32, u32)> {
    let ends = (0..6).flat_map(|a| (0..6).map(move |b| (a, b)));
    ends.filter(|(a, b)| a != b).take(count).collect()
}

#[test]
fn fifteen_pairs_and_no_more() {
    let text = |count| {
        let edges: String = (1..6).map(|v| format!("0 -1-> {v}\n")).collect();
        let pairs = some_pairs(count);
        let pairs: String = pairs.iter().map(|(a, b)| format!("{a} < {b}\n")).collect();
        format!("[query]\nvertices 6\n{edges}{pairs}")
    };
    let query = parse(text(15).as_bytes()).unwrap().hang.query.unwrap();
    assert_eq!(query.pairs.len(), 15);
    assert_eq!(Query::from_bytes(&query.to_bytes()), Ok(query));
    assert_eq!(refused(&text(16)), "23: more than 15 pairs");
}

/// A contradiction is packed with a warning, at the pair that closes it.
#[test]
fn contradictions() {
    for lines in ["", "a < b\n", "a < b\nb < c\na < c\n", "c < b\nb < a\n3 < a\n"] {
        assert_eq!(warning(lines), None, "{lines}");
    }
    let said = |line, pair| Some(format!("{line}: the pairs above contradict {pair}; nothing will match"));
    assert_eq!(warning("a < b\nb < a\n"), said(10, "b < a"));
    assert_eq!(warning("b < a\na < b\n"), said(10, "a < b"));
    assert_eq!(warning("a < b\n\nb < c\nc < a\n3 < a\n"), said(12, "c < a"));
    assert_eq!(warning("c < 3\nb < c\n3 < b\na < b\nb < a\n"), said(11, "3 < b"));
    assert_eq!(pairs("a < b\nb < a\n"), [(0, 1), (1, 0)]);
    // What the engine refuses is said first.
    let plan = "a < b\nb < a\n[plan]\nscan 0\n";
    assert_eq!(warning(plan).unwrap(), "11: vertex c is not covered; the engine will refuse this with 18");
}

/// Every choice of pairs among three vertices: a contradiction is found where no order of the
/// vertices satisfies them.
#[test]
fn contradictions_by_trial() {
    let ends: Vec<(u32, u32)> = vec![(0, 1), (0, 2), (1, 0), (1, 2), (2, 0), (2, 1)];
    let places = [[0, 1, 2], [0, 2, 1], [1, 0, 2], [1, 2, 0], [2, 0, 1], [2, 1, 0]];
    for choice in 0..64 {
        let chosen = (0..6).filter(|i| choice >> i & 1 == 1).map(|i| ends[i]);
        let pairs: Vec<Pair> = chosen.map(|(low, high)| Pair { low, high }).collect();
        let satisfied = |place: &[u32; 3]| {
            let at = |v: u32| place[v as usize];
            pairs.iter().all(|p| at(p.low) < at(p.high))
        };
        let possible = places.iter().any(satisfied);
        assert_eq!(contradiction(&pairs).is_none(), possible, "{pairs:?}");
    }
}

/// A query of so many vertices with these edges of label 1 and pairs, as they stand.
fn file(n: u32, edges: &[(u32, u32)], pairs: &[(u32, u32)]) -> Vec<u8> {
    let mut out = BitWriter::default();
    out.put(n, 4);
    out.put(edges.len() as u32, 5);
    for _ in 0..n {
        out.put(0, 16);
        out.put(0, 16);
        out.put(65_535, 16);
    }
    for &(from, to) in edges {
        out.put(from, 3);
        out.put(to, 3);
        out.put(1, 8);
    }
    out.put(pairs.len() as u32, 4);
    for &(low, high) in pairs {
        out.put(low, 3);
        out.put(high, 3);
    }
    out.finish()
}

fn refusal(file: &[u8]) -> u8 {
    Query::from_bytes(file).unwrap_err().refusal
}

const EDGES: &[(u32, u32)] = &[(0, 1), (1, 2)];

#[test]
fn faulty_pairs_of_a_file() {
    let read = |pairs: &[(u32, u32)]| Query::from_bytes(&file(3, EDGES, pairs));
    let fault = |pairs| -> FileFault { read(pairs).unwrap_err() };
    for pairs in [&[][..], &[(0, 1)], &[(2, 0)], &[(0, 1), (0, 2), (1, 0), (2, 1)]] {
        assert!(read(pairs).is_ok(), "{pairs:?}");
    }
    for (pairs, message) in [
        (&[(1, 1)][..], "pair 1 < 1: equal vertices"),
        (&[(0, 1), (2, 2)], "pair 2 < 2: equal vertices"),
        (&[(3, 0)], "pair 3 < 0: no such vertex"),
        (&[(0, 7)], "pair 0 < 7: no such vertex"),
        (&[(3, 3)], "pair 3 < 3: no such vertex"),
        (&[(0, 1), (0, 1)], "pair 0 < 1 does not ascend"),
        (&[(0, 2), (0, 1)], "pair 0 < 1 does not ascend"),
        (&[(1, 0), (0, 2)], "pair 0 < 2 does not ascend"),
    ] {
        assert_eq!(fault(pairs).to_string(), format!("{message} (refusal 26)"));
    }
}

/// After all edges; whether the query is connected is asked later still.
#[test]
fn the_place_of_faulty_pairs() {
    let bad = &[(1, 1)];
    assert_eq!(refusal(&file(3, EDGES, bad)), 26);
    assert_eq!(refusal(&file(3, &[(0, 1), (2, 2)], bad)), 9);
    assert_eq!(refusal(&file(3, &[(0, 1), (0, 1)], bad)), 10);
    assert_eq!(refusal(&file(3, &[(0, 1)], bad)), 26);
    assert!(Query::from_bytes(&file(3, &[(0, 1)], &[])).is_ok());
}

/// 6 wherever a file ends before its pair count or pairs do; 7 for a byte or a fill bit more.
#[test]
fn lengths() {
    for count in 0..=15 {
        for pairs in [some_pairs(count), vec![(1, 1); count]] {
            let file = file(6, EDGES, &pairs);
            let bits = 9 + 48 * 6 + 14 * 2 + 4 + 6 * count;
            assert_eq!(file.len(), bits.div_ceil(8));
            for length in 0..file.len() {
                assert_eq!(refusal(&file[..length]), 6, "{count} pairs, {length} bytes");
            }
            assert_eq!(refusal(&[&file[..], &[0]].concat()), 7);
            for bit in 0..8 * file.len() - bits {
                let mut file = file.clone();
                *file.last_mut().unwrap() |= 1 << bit;
                assert_eq!(refusal(&file), 7);
            }
        }
    }
}
