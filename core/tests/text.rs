//! What the text form means, and what is said about text that breaks its rules.

mod common;

use common::{parse, refused};
use rizhavaan_core::day::Day;
use rizhavaan_core::packed::edge::Edge;
use rizhavaan_core::packed::plan::Operator;

const QUERY: &str = "[query]\nvertices 4\n0 -1-> 1\n1 -1-> 2\n2 -1-> 3\n";

/// The warning that a text is accepted with.
fn warned(text: &str) -> String {
    let parsed = parse(text.as_bytes()).expect(text);
    let note = parsed.warning.expect(text);
    format!("{}: {}", note.line, note.reason)
}

fn plan(operators: &str) -> String {
    format!("{QUERY}[plan]\n{operators}")
}

fn edge(source: u32, label: u32, target: u32) -> Edge {
    Edge { source, label, target }
}

#[test]
fn names_numbers_labels_and_comments() {
    let text = "# a hang\r\n\n  [graph] # here\n\
                vertices 2 label 65535\nvertex pin label 7#x\nvertex Öse-2\n\
                pin -255-> 0\n2 -1-> Öse-2\n3 -1-> 3\n";
    let parsed = parse(text.as_bytes()).unwrap();
    let graph = parsed.hang.graph.unwrap();
    let labels: Vec<u32> = graph.vertices.iter().map(|v| v.label).collect();
    assert_eq!(labels, [65_535, 65_535, 7, 0]);
    assert!(graph.vertices.iter().all(|v| v.day == Day::NONE));
    assert_eq!(graph.edges, [edge(2, 1, 3), edge(2, 255, 0), edge(3, 1, 3)]);
    assert!(parsed.hang.query.is_none() && parsed.hang.plan.is_none());
}

#[test]
fn edges_are_sorted_each_file_in_its_order() {
    let edges = "vertices 3\n1 -1-> 0\n0 -2-> 1\n0 -1-> 2\n0 -1-> 1\n";
    let parsed = parse(format!("[graph]\n{edges}[query]\n{edges}").as_bytes()).unwrap();
    let (a, b, c, d) = (edge(0, 1, 1), edge(0, 1, 2), edge(0, 2, 1), edge(1, 1, 0));
    assert_eq!(parsed.hang.graph.unwrap().edges, [a, b, c, d]);
    assert_eq!(parsed.hang.query.unwrap().edges, [a, c, b, d]);
}

#[test]
fn scans_by_index_and_by_edge() {
    let text = "[plan]\nscan 1\nscan b -1-> a\nextend c\njoin\n\
                [query]\nvertex a\nvertex b\nvertex c\nb -1-> a\na -1-> b\nb -2-> c\n";
    let plan = parse(text.as_bytes()).unwrap().hang.plan.unwrap();
    use Operator::{Extend, Join, Scan};
    assert_eq!(plan.operators, [Scan(1), Scan(1), Extend(2), Join]);
}

#[test]
fn edges_of_any_label() {
    let text = "[query]\nvertex any\nvertex b\nvertices 1\n\
                b -255-> 2\nb -any-> 2\nany -1-> b\nany -any-> b\n\
                [plan]\nscan b -any-> 2\nscan any -any-> b\nscan 1\njoin\njoin\n";
    let hang = parse(text.as_bytes()).unwrap().hang;
    let query = hang.query.as_ref().unwrap();
    let edges = [edge(0, 0, 1), edge(0, 1, 1), edge(1, 0, 2), edge(1, 255, 2)];
    assert_eq!(query.edges, edges);
    use Operator::{Join, Scan};
    let plan = hang.plan.as_ref().unwrap();
    assert_eq!(plan.operators, [Scan(2), Scan(0), Scan(1), Join, Join]);
    let unpacked = "[query]\nvertices 3 label 0  # 0 to 2\n\
                    0 -any-> 1\n0 -1-> 1\n1 -any-> 2\n1 -255-> 2\n\
                    [plan]\nscan 1 -any-> 2\nscan 0 -any-> 1\nscan 0 -1-> 1\njoin\njoin\n";
    assert_eq!(hang.clone().to_text(None).unwrap(), unpacked);
    assert_eq!(parse(unpacked.as_bytes()).unwrap().hang, hang);
}

#[test]
fn faulty_labels_of_query_edges() {
    for (line, message) in [
        ("0 -0-> 1", "for an edge of any label write 'any', not 0"),
        ("0 -256-> 1", "edge label 256 is not within 1 to 255"),
        ("0 -Any-> 1", "no kind of connection 'Any' is known: there is no hang, and no [kinds]"),
        ("0 --> 1", "edge label '' is no number"),
        ("0 any-> 1", "'any->' is no arrow -LABEL->"),
        ("0 -any-> 0", "a query edge joins two different vertices"),
        ("0 -any-> 9", "no vertex '9' has been declared"),
        ("1 -any-> 0", "the edge stands at line 3 already"),
    ] {
        let text = format!("[query]\nvertices 2\n1 -any-> 0\n{line}\n");
        assert_eq!(refused(&text), format!("4: {message}"));
    }
    let scan = "7: the query has no edge 0 -any-> 1";
    assert_eq!(refused(&plan("scan 0 -any-> 1")), scan);
    let scan = "7: for an edge of any label write 'any', not 0";
    assert_eq!(refused(&plan("scan 0 -0-> 1")), scan);
}

#[test]
fn faulty_sections() {
    let expected = "expected [kinds], [graph], [query], [plan] or [changes]";
    for (text, message) in [
        ("", format!("1: no section; {expected}")),
        ("# nothing\n\n", format!("1: no section; {expected}")),
        ("\n0 -1-> 1\n[graph]\n", format!("2: no section yet; {expected}")),
        ("[graph]\n[gaph]\n", format!("2: '[gaph]' is no section; {expected}")),
        ("\n[graph]\n\n[graph]\n", "4: a second [graph]; the first is at line 2".into()),
        ("[graph]\n[plan]\nscan 0\n", "2: a [plan] needs its [query]".into()),
        ("[query]\nvertices 2\n0 -1-> 1\n[changes]\n", "4: [changes] need their [graph]".into()),
    ] {
        assert_eq!(refused(text), message);
    }
}

#[test]
fn text_that_is_not_utf8() {
    let note = parse(b"[graph]\n# \xff\n").unwrap_err();
    assert_eq!((note.line, &note.reason[..]), (2, "the text is not UTF-8"));
}

#[test]
fn faulty_graph_lines() {
    for (line, message) in [
        ("vertices 65534", "more than 65535 vertices"),
        ("vertices 99999999999", "count 99999999999 is not within 0 to 4294967295"),
        ("vertices -1", "count '-1' is no number"),
        ("vertices 1 label 65536", "vertex label 65536 is not within 0 to 65535"),
        ("vertices 1 label +1", "vertex label '+1' is no number"),
        ("vertex a->b", "'a->b' is a word of the text form and no name: write it in quotes, \"a->b\""),
        ("vertex pin", "'pin' is the name of vertex 1 already"),
        ("vertex vertices", "'vertices' is a word of the text form and no name: write it in quotes, \"vertices\""),
        ("0 -1-> 2", "no item '2' has been declared"),
        ("99999999999 -1-> 0", "no item '99999999999' has been declared"),
        ("0 -1-> truss", "no item 'truss' has been declared"),
        ("0 -0-> pin", "edge label 0 is not within 1 to 255"),
        ("0 -any-> pin", "'any' is for query edges; a graph edge has a label"),
        ("0 -256-> pin", "edge label 256 is not within 1 to 255"),
        ("0 --> pin", "edge label '' is no number"),
        ("0 -> pin", "'->' is no arrow -LABEL->"),
        ("0 -1- pin", "'-1-' is no arrow -LABEL->"),
        ("pin -1-> 0", "the edge stands at line 4 already"),
    ] {
        let text = format!("[graph]\nvertices 1\nvertex pin\npin -1-> 0\n{line}\n");
        assert_eq!(refused(&text), format!("5: {message}"));
    }
}

#[test]
fn lines_of_no_known_form() {
    for line in ["0-1->1", "vertex", "vertices", "vertex a label", "scan 0"] {
        let message = refused(&format!("[graph]\n{line}\n"));
        assert!(message.starts_with("2: expected an item 'NAME: KIND'"), "{message}");
    }
    for line in ["scan", "scan a b", "extend", "extend 0 1", "join 1", "hash"] {
        let message = refused(&plan(line));
        assert!(message.starts_with("7: expected 'scan A -L-> B'"), "{message}");
    }
}

#[test]
fn limits_of_a_query() {
    for (body, message) in [
        ("", "1: too few vertices: 0, at least 2"),
        ("vertices 1", "1: too few vertices: 1, at least 2"),
        ("vertices 2", "1: too few edges: 0, at least 1"),
        ("vertices 8\nvertex a", "3: more than 8 vertices"),
        ("vertices 2\n0 -1-> 0", "3: a query edge joins two different vertices"),
    ] {
        assert_eq!(refused(&format!("[query]\n{body}\n")), message);
    }
    let edges = |m| (1..=m).map(|l| format!("0 -{l}-> 1\n")).collect::<String>();
    assert!(parse(format!("[query]\nvertices 2\n{}", edges(24)).as_bytes()).is_ok());
    let text = format!("[query]\nvertices 2\n{}", edges(25));
    assert_eq!(refused(&text), "27: more than 24 edges");
}

#[test]
fn limits_of_a_plan() {
    for (operators, message) in [
        ("", "6: too few operators: 0, at least 1"),
        ("scan 3", "7: query edge 3 is not within 0 to 2"),
        ("scan x", "7: query edge 'x' is no number"),
        ("scan 0 -2-> 1", "7: the query has no edge 0 -2-> 1"),
        ("scan 0 -1-> 4", "7: no vertex '4' has been declared"),
        ("scan 0\nextend 4", "8: no vertex '4' has been declared"),
    ] {
        assert_eq!(refused(&plan(operators)), message);
    }
    assert!(parse(plan(&"scan 0\n".repeat(31)).as_bytes()).is_ok());
    assert_eq!(refused(&plan(&"scan 0\n".repeat(32))), "38: more than 31 operators");
}

#[test]
fn warnings_of_what_the_engine_refuses() {
    let text = "[query]\nvertices 4\n0 -1-> 1\n2 -1-> 3\n[plan]\njoin\n";
    let unconnected = "1: the query is not connected; the engine will refuse this with 11";
    assert_eq!(warned(text), unconnected);
    for (operators, message) in [
        ("extend 0", "7: extend has no result to extend; the engine will refuse this with 15"),
        ("scan 0\njoin", "8: join needs two results; the engine will refuse this with 15"),
        ("scan 0\nscan 1", "6: 2 results are left over; the engine will refuse this with 15"),
        ("scan 0\n\nextend 1", "9: vertex 1 is covered already; the engine will refuse this with 16"),
        ("scan 0\nscan 2\njoin", "9: the two results share no vertex; the engine will refuse this with 17"),
        ("scan 0\nextend 2", "6: vertex 3 is not covered; the engine will refuse this with 18"),
    ] {
        assert_eq!(warned(&plan(operators)), message);
    }
    assert!(parse(plan("scan 1\nextend 0\nextend 3").as_bytes()).unwrap().warning.is_none());
}
