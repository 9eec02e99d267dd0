//! Changes to a graph: their text form, their bits, and what is said of those that break the rules
//! or do not apply.

mod common;

use common::{parse, refused, Parsed};
use rizhavaan_core::packed::change::{broken_rule, Change, Changes};
use rizhavaan_core::packed::edge::Edge;
use rizhavaan_core::packed::graph::Graph;
use rizhavaan_core::packing::Packed;

/// A truss, a motor and vertex 2, with two edges and these lines of changes: the first is line 8.
fn rig(lines: &str) -> String {
    let edges = "truss -5-> motor\nmotor -255-> 2\n";
    format!("[graph]\nvertex truss\nvertex motor\nvertices 1\n{edges}[changes]\n{lines}")
}

fn parsed(lines: &str) -> Parsed {
    let text = rig(lines);
    parse(text.as_bytes()).expect(&text)
}

/// The changes, each as (adds, source, label, target).
fn changes(lines: &str) -> Vec<(bool, u32, u32, u32)> {
    let read = parsed(lines).hang.changes.unwrap();
    let fields = |c: &Change| (c.adds, c.edge.source, c.edge.label, c.edge.target);
    read.changes.iter().map(fields).collect()
}

/// The warning for the lines, if there is one.
fn warning(lines: &str) -> Option<String> {
    parsed(lines).warning.map(|note| note.to_string())
}

#[test]
fn changes_are_sorted_and_come_back() {
    assert_eq!(changes(""), []);
    assert_eq!(changes("- truss -5-> motor\n"), [(false, 0, 5, 1)]);
    let lines = "+ 2 -1-> 2 # here\n - motor  -255-> 2\n+ 0 -5-> 2\n- 0 -5-> 1\n+ truss -1-> 2\n";
    assert_eq!(
        changes(lines),
        [(true, 0, 1, 2), (false, 0, 5, 1), (true, 0, 5, 2), (false, 1, 255, 2), (true, 2, 1, 2)]
    );
    assert_eq!(warning(lines), None);
    let hang = parsed(lines).hang;
    let unpacked = "[graph]\nvertices 3 label 0  # 0 to 2\n0 -5-> 1\n1 -255-> 2\n\
                    [changes]\n+ 0 -1-> 2\n- 0 -5-> 1\n+ 0 -5-> 2\n- 1 -255-> 2\n+ 2 -1-> 2\n";
    assert_eq!(hang.clone().to_text(None).unwrap(), unpacked);
    assert_eq!(parse(unpacked.as_bytes()).unwrap().hang, hang);
    assert_eq!(Packed::from_files(hang.to_files()), Ok(hang));
}

/// A count of 20 bits; for each a bit and an edge.
#[test]
fn the_bits() {
    let bytes = |lines: &str| parsed(lines).hang.changes.unwrap().to_bytes();
    assert_eq!(bytes(""), [0, 0, 0]);
    let fields = [
        "00000000000000000010",
        "0 0000000000000000 00000101 0000000000000001",
        "1 0000000000000010 00000001 0000000000000000",
        "00",
    ];
    let bits: Vec<u8> = fields.concat().bytes().filter(|b| *b != b' ').collect();
    let packed = bits.chunks(8).map(|byte| byte.iter().fold(0, |value, bit| 2 * value + bit - b'0'));
    let packed: Vec<u8> = packed.collect();
    assert_eq!(bytes("+ 2 -1-> truss\n- truss -5-> motor\n"), packed);
}

/// The changes may stand before their graph, and beside a pattern.
#[test]
fn changes_among_other_sections() {
    let text = "[changes]\n+ b -1-> a\n[query]\nvertices 2\n0 -any-> 1\n\
                [graph]\nvertex a\nvertex b\n";
    let hang = parse(text.as_bytes()).unwrap().hang;
    assert_eq!(hang.changes.unwrap().changes.len(), 1);
    assert!(hang.graph.is_some() && hang.query.is_some() && hang.plan.is_none());
}

#[test]
fn faulty_changes() {
    for (line, message) in [
        ("+ truss -1-> 3", "no item '3' has been declared"),
        ("- tuss -1-> 0", "no item 'tuss' has been declared"),
        ("+ 0 -0-> 1", "edge label 0 is not within 1 to 255"),
        ("- 0 -256-> 1", "edge label 256 is not within 1 to 255"),
        ("+ 0 --> 1", "edge label '' is no number"),
        ("+ 0 -any-> 1", "'any' is for query edges; a graph edge has a label"),
        ("- 0 -any-> 1", "'any' is for query edges; a graph edge has a label"),
        ("+ 0 -> 1", "'->' is no arrow -LABEL->"),
        ("+ 0 -5-> 2", "the edge stands at line 8 already"),
        ("- truss -5-> 2", "the edge stands at line 8 already"),
    ] {
        let text = rig(&format!("+ 0 -5-> 2\n{line}\n"));
        assert_eq!(refused(&text), format!("9: {message}"));
    }
    for line in ["0 -1-> 1", "+0 -1-> 1", "+ 0 -1-> 1 2", "+", "- 0", "* 0 -1-> 1", "vertex pin", "+ vertex pin"] {
        let message = refused(&rig(&format!("{line}\n")));
        assert!(message.starts_with("8: expected '+ A -L-> B', an edge to add"), "{message}");
    }
    // A sign belongs to changes alone.
    let message = refused("[graph]\nvertices 2\n+ 0 -1-> 1\n");
    assert!(message.starts_with("3: expected an item 'NAME: KIND'"), "{message}");
}

/// What the engine will refuse is packed, with a warning at the first line that is at fault.
#[test]
fn changes_that_do_not_apply() {
    let said = |line: usize, reason: &str| Some(format!("{line}: {reason}; the engine will refuse this with 28"));
    assert_eq!(warning(""), None);
    assert_eq!(warning("- 0 -5-> 1\n- 1 -255-> 2\n+ 1 -5-> 0\n"), None);
    assert_eq!(
        warning("+ 1 -5-> 0\n+ truss -5-> motor\n- 2 -1-> 2\n"),
        said(9, "the graph has the edge truss -5-> motor already")
    );
    assert_eq!(warning("- 2 -1-> 2\n+ truss -5-> motor\n"), said(8, "the graph has no edge 2 -1-> 2"));
    assert_eq!(changes("+ truss -5-> motor\n"), [(true, 0, 5, 1)]);
    // It is said before what is wrong with the pattern.
    let text = rig("- 2 -1-> 2\n") + "[query]\nvertices 3\n0 -1-> 1\n";
    let warned = parse(text.as_bytes()).unwrap().warning.unwrap();
    assert_eq!(warned.line, 8);
    let text = rig("") + "[query]\nvertices 3\n0 -1-> 1\n";
    let warned = parse(text.as_bytes()).unwrap().warning.unwrap();
    assert!(warned.reason.ends_with("with 11"));
}

/// Edge i of a graph of 65 vertices, which has room for more than 1,048,575 of them.
fn edge(i: u32) -> Edge {
    Edge { source: i / 255 / 65, label: 1 + i / 65 % 255, target: i % 65 }
}

const MOST: u32 = 1_048_575;

/// 29 where changes leave more edges than a graph may have, and after 28.
#[test]
fn more_edges_than_a_graph_has() {
    let (last, beyond) = (edge(MOST - 1), edge(MOST));
    let lines: String = (0..MOST).map(|i| format!("{}\n", edge(i))).collect();
    let text = format!("[graph]\nvertices 65\n{lines}[changes]\n+ {beyond}\n");
    let Parsed { hang, warning } = parse(text.as_bytes()).unwrap();
    let warning = warning.unwrap();
    assert_eq!(
        warning.reason,
        "the changes make 1048576 edges, more than 1048575; the engine will refuse this with 29"
    );
    assert_eq!(warning.line, MOST as usize + 3);
    let graph = hang.graph.unwrap();
    let broken = |changes: &[(bool, Edge)]| {
        let change = |&(adds, edge): &(bool, Edge)| Change { adds, edge };
        let changes: Vec<Change> = changes.iter().map(change).collect();
        broken_rule(&graph, &changes, &|e| e.to_string()).map(|broken| (broken.change, broken.refusal))
    };
    assert_eq!(broken(&[(true, beyond)]), Some((None, 29)));
    assert_eq!(broken(&[(true, beyond), (false, last)]), None);
    assert_eq!(broken(&[(true, beyond), (true, last)]), Some((Some(1), 28)));
}

/// As many changes as a count of 20 bits holds, and one more.
#[test]
fn more_changes_than_a_file_has() {
    let lines: String = (0..=MOST).map(|i| format!("+ {}\n", edge(i))).collect();
    let text = format!("[graph]\nvertices 65\n[changes]\n{lines}");
    let message = format!("{}: more than 1048575 changes", MOST + 4);
    assert_eq!(refused(&text), message);
    let change = |i| Change { adds: true, edge: edge(i) };
    let changes = Changes::new((0..MOST).map(change).collect());
    let file = changes.to_bytes();
    assert_eq!(file.len(), (20 + 41 * MOST as usize).div_ceil(8));
    assert_eq!(file[..3], [255, 255, 0xf8]);
    let graph = parse(b"[graph]\nvertices 65\n").unwrap().hang.graph;
    assert_eq!(Changes::from_bytes(&file, &graph.unwrap()), Ok(changes));
}

/// Every choice of two changes over every graph of two edges: the rule is broken where a change is of
/// an edge that is there and is added, or is not and is taken away.
#[test]
fn rules_by_trial() {
    let edges: Vec<Edge> = (0..4).map(edge).collect();
    let chosen = |set: u32| (0..4).filter(move |i| set >> i & 1 == 1);
    for present in 0..16 {
        let there = chosen(present).map(|i| edges[i]).collect();
        let graph = Graph::new(Vec::new(), there);
        for set in 0..16 {
            for signs in 0..16 {
                let adds = |i: usize| signs >> i & 1 == 1;
                let change = |i: usize| Change { adds: adds(i), edge: edges[i] };
                let changes: Vec<Change> = chosen(set).map(change).collect();
                let unfit = chosen(set).position(|i| adds(i) == (present >> i & 1 == 1));
                let broken = broken_rule(&graph, &changes, &|e| e.to_string());
                assert_eq!(broken.as_ref().and_then(|b| b.change), unfit);
                assert!(broken.iter().all(|b| b.refusal == 28));
            }
        }
    }
}
