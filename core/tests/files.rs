//! Malformed packed files, against the numbers that the engine refuses them with.

use rizhavaan_core::packed::bits::BitWriter;
use rizhavaan_core::packed::change::Changes;
use rizhavaan_core::packed::edge::FileFault;
use rizhavaan_core::packed::graph::Graph;
use rizhavaan_core::packed::plan::Plan;
use rizhavaan_core::packed::query::Query;

/// The worked files G, Q and P in hexadecimal.
const G: &str = "0004 00005 00000000 00000000 00000000 00000000 \
                 0000010001 0000010002 0001010002 0001010003 0002010003 0";
const Q: &str = "31 80 00 00 00 7f ff 80 00 00 00 7f ff 80 00 00 00 7f ff 82 02 10 09 40 20";
const P: &str = "10 05 00";

fn bytes(hex: &str) -> Vec<u8> {
    let digits: Vec<u32> = hex.chars().filter_map(|c| c.to_digit(16)).collect();
    digits.chunks(2).map(|d| (d[0] * 16 + d[1]) as u8).collect()
}

fn refusal<T: std::fmt::Debug>(result: Result<T, FileFault>) -> u8 {
    result.unwrap_err().refusal
}

fn graph(hex: &str) -> Result<Graph, FileFault> {
    Graph::from_bytes(&bytes(hex))
}

fn query(hex: &str) -> Result<Query, FileFault> {
    Query::from_bytes(&bytes(hex))
}

fn plan(hex: &str) -> Result<Plan, FileFault> {
    Plan::from_bytes(&bytes(hex), &query(Q).unwrap())
}

#[test]
fn the_worked_files_come_back() {
    assert_eq!(graph(G).unwrap().to_bytes(), bytes(G));
    assert_eq!(query(Q).unwrap().to_bytes(), bytes(Q));
    assert_eq!(plan(P).unwrap().to_bytes(), bytes(P));
}

#[test]
fn graphs() {
    assert!(graph("0000 00000 0").is_ok());
    assert_eq!(refusal(graph("")), 1);
    assert_eq!(refusal(graph("0000 0000")), 1);
    assert_eq!(refusal(Graph::from_bytes(&bytes(G)[..45])), 1);
    assert_eq!(refusal(graph("0000 00000 000")), 2);
    assert_eq!(refusal(graph("0000 00000 1")), 2);
    assert_eq!(refusal(graph("0001 00001 00000000 0000010001 0")), 3);
    assert_eq!(refusal(graph("0001 00001 00000000 0001010000 0")), 3);
    assert_eq!(refusal(graph("0001 00001 00000000 0000000000 0")), 3);
    assert_eq!(refusal(graph("0001 00002 00000000 0000010000 0000010000 0")), 4);
    assert_eq!(refusal(graph("0001 00002 00000000 0000020000 0000010000 0")), 4);
}

#[test]
fn queries() {
    // Two vertices, one edge from 0 to 1 of label 1 and no pair: 123 bits.
    assert!(query("20 80 00 00 00 7f ff 80 00 00 00 7f ff 82 02 00").is_ok());
    assert_eq!(refusal(query("")), 6);
    assert_eq!(refusal(query("20")), 6);
    assert_eq!(refusal(query("10 80")), 8);
    assert_eq!(refusal(query("90 80")), 8);
    assert_eq!(refusal(query("20 00")), 8);
    assert_eq!(refusal(query("2c 80")), 8);
    assert_eq!(refusal(query("20 80 00 00 00 7f ff 80 00 00 00 7f ff 82")), 6);
    // The pair count has its first bit in the byte that the edge ends in.
    assert_eq!(refusal(query("20 80 00 00 00 7f ff 80 00 00 00 7f ff 82 02")), 6);
    assert_eq!(refusal(query("20 80 00 00 00 7f ff 80 00 00 00 7f ff 82 02 00 00")), 7);
    assert_eq!(refusal(query("20 80 00 00 00 7f ff 80 00 00 00 7f ff 82 02 01")), 7);
    assert_eq!(refusal(query("20 80 00 00 00 7f ff 80 00 00 00 7f ff 84 02 00")), 9);
    assert_eq!(refusal(query("20 80 00 00 00 7f ff 80 00 00 00 7f ff a0 02 00")), 9);
    assert_eq!(refusal(query("20 80 00 00 00 7f ff 80 00 00 00 7f ff 80 02 00")), 9);
    // An edge of label 0 is one of any label; its ends are as for the others.
    assert!(query("20 80 00 00 00 7f ff 80 00 00 00 7f ff 82 00 00").is_ok());
    assert_eq!(refusal(query("20 80 00 00 00 7f ff 80 00 00 00 7f ff 84 00 00")), 9);
    assert_eq!(refusal(query("20 80 00 00 00 7f ff 80 00 00 00 7f ff 80 00 00")), 9);
    assert_eq!(refusal(query("21 00 00 00 00 7f ff 80 00 00 00 7f ff 82 02 08 08 00")), 10);
    assert_eq!(refusal(query("21 00 00 00 00 7f ff 80 00 00 00 7f ff 82 02 08 00 00")), 10);
    assert_eq!(refusal(query("21 00 00 00 00 7f ff 80 00 00 00 7f ff 82 00 08 00 00")), 10);
    assert!(query("21 00 00 00 00 7f ff 80 00 00 00 7f ff 82 00 08 08 00").is_ok());
}

/// The graph's own label 0 stays refused, and is not called any label.
#[test]
fn label_0() {
    let fault = graph("0001 00001 00000000 0000000000 0").unwrap_err();
    assert_eq!(fault.to_string(), "edge from 0 to 0: label 0 (refusal 3)");
    let fault = graph("0001 00001 00000000 0000000001 0").unwrap_err();
    assert_eq!(fault.to_string(), "edge from 0 to 1: label 0 (refusal 3)");
    let any = query("20 80 00 00 00 7f ff 80 00 00 00 7f ff 82 00 00").unwrap();
    assert_eq!(any.edges[0].to_string(), "0 -any-> 1");
    let file = "20 80 00 00 00 7f ff 80 00 00 00 7f ff 82 00 00";
    assert_eq!(any.to_bytes(), bytes(file));
}

/// A query of two vertices with these first and last days, and one edge.
fn inspected(days: [(u32, u32); 2], edge: (u32, u32)) -> Vec<u8> {
    let mut out = BitWriter::default();
    out.put(2, 4);
    out.put(1, 5);
    for (first, last) in days {
        out.put(7, 16);
        out.put(first, 16);
        out.put(last, 16);
    }
    out.put(edge.0, 3);
    out.put(edge.1, 3);
    out.put(1, 8);
    out.put(0, 4);
    out.finish()
}

/// A first day above the last is refused after the lengths and before the edges.
#[test]
fn days_of_a_query() {
    let read = |days, edge| Query::from_bytes(&inspected(days, edge));
    for good in [(0, 0), (0, 65_535), (5, 5), (65_535, 65_535)] {
        assert!(read([good, (1, 2)], (0, 1)).is_ok());
    }
    for bad in [(1, 0), (6, 5), (65_535, 65_534), (65_535, 0)] {
        assert_eq!(refusal(read([bad, (0, 65_535)], (0, 1))), 25);
        assert_eq!(refusal(read([(0, 65_535), bad], (0, 1))), 25);
        assert_eq!(refusal(read([(0, 65_535), bad], (1, 1))), 25);
        let file = inspected([bad, bad], (7, 7));
        assert_eq!(refusal(Query::from_bytes(&file)), 25);
        assert_eq!(refusal(Query::from_bytes(&file[..file.len() - 1])), 6);
        assert_eq!(refusal(Query::from_bytes(&[&file[..], &[0]].concat())), 7);
        let fill = [&file[..file.len() - 1], &[file[file.len() - 1] | 1]].concat();
        assert_eq!(refusal(Query::from_bytes(&fill)), 7);
        assert_eq!(refusal(Query::from_bytes(&[&[0x1f], &file[1..]].concat())), 8);
    }
    assert_eq!(refusal(read([(5, 5), (6, 6)], (1, 1))), 9);
    let fault = read([(5, 5), (9_496, 1)], (0, 1)).unwrap_err();
    assert_eq!(fault.to_string(), "vertex 1: first day 2025-12-31 above last day 2000-01-02 (refusal 25)");
}

/// The day follows each label; every number of 16 bits is one.
#[test]
fn days_of_a_graph() {
    let file = "0003 00000 00070001 0000ffff ffff0000 0";
    let graph = graph(file).unwrap();
    let fields: Vec<(u32, u32)> = graph.vertices.iter().map(|v| (v.label, v.day.0)).collect();
    assert_eq!(fields, [(7, 1), (0, 65_535), (65_535, 0)]);
    assert_eq!(graph.to_bytes(), bytes(file));
}

/// Of changes to G, which has 4 vertices: one takes 61 bits, and two take 102.
#[test]
fn changes() {
    let g = graph(G).unwrap();
    let read = |bytes: &[u8]| Changes::from_bytes(bytes, &g);
    let fault = |hex: &str| read(&bytes(hex)).unwrap_err().to_string();
    // Takes 1 -1-> 2 away.
    let one = "00001 00008 080010";
    assert_eq!(read(&bytes(one)).unwrap().to_bytes(), bytes(one));
    assert_eq!(read(&[0; 3]).unwrap().changes, []);
    for length in 0..bytes(one).len() {
        assert_eq!(refusal(read(&bytes(one)[..length])), 27, "{length} bytes");
    }
    assert_eq!(fault("00001 00008 0800"), "the file is too short (refusal 27)");
    assert_eq!(fault("00001 00008 08001000"), "the file is too long (refusal 27)");
    assert_eq!(fault("00001 00008 080014"), "a fill bit is set (refusal 27)");
    assert_eq!(fault("000001"), "a fill bit is set (refusal 27)");
    assert_eq!(fault("00001 00008 000010"), "edge from 1 to 2: label 0 (refusal 27)");
    assert_eq!(fault("00001 00020 080010"), "edge 4 -1-> 2: no such vertex (refusal 27)");
    assert_eq!(fault("00001 80008 080020"), "edge 1 -1-> 4: no such vertex (refusal 27)");
    // 1 -1-> 2 twice, whatever the bits say; then 1 -1-> 3 and 1 -1-> 2.
    for second in [0, 1] {
        let mut out = BitWriter::default();
        for (value, width) in [(2, 20), (0, 1), (1, 16), (1, 8), (2, 16)] {
            out.put(value, width);
        }
        for (value, width) in [(second, 1), (1, 16), (1, 8), (2, 16)] {
            out.put(value, width);
        }
        let message = "edge 1 -1-> 2 does not ascend (refusal 27)";
        assert_eq!(read(&out.finish()).unwrap_err().to_string(), message);
    }
    let mut out = BitWriter::default();
    for (value, width) in [(2, 20), (1, 1), (1, 16), (2, 8), (0, 16)] {
        out.put(value, width);
    }
    for (value, width) in [(0, 1), (1, 16), (1, 8), (3, 16)] {
        out.put(value, width);
    }
    let message = "edge 1 -1-> 3 does not ascend (refusal 27)";
    assert_eq!(read(&out.finish()).unwrap_err().to_string(), message);
}

#[test]
fn plans() {
    assert_eq!(refusal(plan("")), 12);
    assert_eq!(refusal(plan("10 05")), 12);
    assert_eq!(refusal(plan("00")), 14);
    assert_eq!(refusal(plan("0e")), 14);
    assert_eq!(refusal(plan("08 30")), 14);
    assert_eq!(refusal(plan("0b c0")), 14);
    assert_eq!(refusal(plan("10 05 00 00")), 13);
    assert_eq!(refusal(plan("10 05 01")), 13);
}
