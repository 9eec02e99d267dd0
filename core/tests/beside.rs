//! Hangs from arrays, patterns and changes that are read beside a hang, patterns without one, and pictures.

mod common;

use rizhavaan_core::arrays::{self, Arrays, Kind, NO_KIND};
use rizhavaan_core::json::written::Written;
use rizhavaan_core::picture::Drawing;
use rizhavaan_core::text::alone::words_as_kinds;
use rizhavaan_core::{read, read_changes, read_patterns, write, Document, Failure, Reading, Source};
use serde_json::json;

const HANG: &str = "[graph]\nbeam: beam\nm1: motor day 2025-08-11\n\"motor 2\": motor\n7: truss\nbeam -carries-> m1\n\
                    m1 -carries-> \"7\"\n\"motor 2\" -\"safety wire\"-> \"7\"\n";

fn document(text: &str) -> Document {
    let sources = [Source::new("hang", text)];
    let reading = read(&sources);
    reading.document.expect("the text has no fault")
}

fn reasons(reading: &Reading) -> Vec<String> {
    reading.faults.faults.iter().map(|fault| fault.reason.clone()).collect()
}

fn arrays() -> Arrays {
    Arrays {
        names: ["beam", "m1", "motor 2", "7"].map(String::from).to_vec(),
        item_kinds: ["beam", "motor", "truss"].map(|name| Kind::Name(name.into())).to_vec(),
        connection_kinds: ["carries", "safety wire"].map(|name| Kind::Name(name.into())).to_vec(),
        days: ["", "2025-08-11", "", ""].map(String::from).to_vec(),
        kinds: vec![0, 1, 1, 2],
        connections: vec![[2, 1, 3], [1, 0, 3], [0, 0, 1], [1, 0, 3]],
    }
}

#[test]
fn arrays_are_the_hang_of_the_text() {
    let (from_arrays, from_text) = (arrays::document(&arrays()).unwrap(), document(HANG));
    assert_eq!(write::document(&from_arrays), write::document(&from_text));
    let [a, b] = [&from_arrays, &from_text].map(|document| &document.hang.as_ref().unwrap().graph);
    assert_eq!(a, b);
}

#[test]
fn kinds_by_number_and_none() {
    let mut some = arrays();
    some.item_kinds = vec![Kind::Number(9), Kind::Name("motor".into()), Kind::Number(1)];
    some.kinds[3] = NO_KIND;
    let hang = arrays::document(&some).unwrap().hang.unwrap();
    let labels: Vec<u32> = hang.graph.vertices.iter().map(|vertex| vertex.label).collect();
    assert_eq!(labels, [9, 2, 2, 0]);
}

#[test]
fn damaged_arrays_are_refused() {
    let damages: [(&dyn Fn(&mut Arrays), &str); 12] = [
        (&|a| a.names[1] = "beam".into(), "items 0 and 1 are both named 'beam'"),
        (&|a| a.names[1] = String::new(), "at least one letter"),
        (&|a| a.names[1] = "a\nb".into(), "control characters"),
        (&|a| a.kinds[0] = 3, "'beam' has kind 3 of 3"),
        (&|a| a.kinds.truncate(3), "4 names, 3 kinds and 4 days"),
        (&|a| a.days.truncate(3), "4 names, 4 kinds and 3 days"),
        (&|a| a.days[2] = "tomorrow".into(), "'motor 2': 'tomorrow' is no day"),
        (&|a| a.connections[0] = [0, 2, 1], "a connection has kind 2 of 2"),
        (&|a| a.connections[0] = [0, 1, 4], "joins items 0 and 4 of 4"),
        (&|a| a.item_kinds[0] = Kind::Number(0), "not within 1 to 65535"),
        (&|a| a.connection_kinds[0] = Kind::Number(256), "not within 1 to 255"),
        (&|a| a.item_kinds[0] = Kind::Name("12".into()), "'12' is a number and no name of a kind"),
    ];
    for (damage, said) in damages {
        let mut some = arrays();
        damage(&mut some);
        match arrays::document(&some) {
            Err(Failure::Usage(sentence)) => assert!(sentence.contains(said), "{sentence}"),
            other => panic!("{said}: {other:?}"),
        }
    }
    let many = Arrays { names: (0..65_536).map(|i| i.to_string()).collect(), ..Arrays::default() };
    assert!(arrays::document(&many).unwrap_err().to_string().contains("65536 items, of 65535 at most"));
}

#[test]
fn patterns_beside_a_hang_have_its_kinds() {
    let hang = document(HANG);
    let text = "[query]\na: motor\nb: truss\na -\"safety wire\"-> b\n[plan]\nscan a -\"safety wire\"-> b\n";
    let sources = [Source::new("pattern", text)];
    let reading = read_patterns(&hang, &sources);
    let own = document(&format!("{HANG}{text}"));
    let [beside, inside] = [reading.document.as_ref().unwrap(), &own].map(|document| &document.patterns[0]);
    assert_eq!((&beside.query, &beside.plan), (&inside.query, &inside.plan));
    let wrong = [Source::new("pattern", "[query]\na: moter\nvertex b\na -any-> b\n")];
    let reading = read_patterns(&hang, &wrong);
    assert!(reading.document.is_none());
    assert_eq!(reasons(&reading), ["no item of kind 'moter' is in the hang"]);
    let second = [Source::new("pattern", "[graph]\nx: beam\n")];
    assert_eq!(reasons(&read_patterns(&hang, &second)), ["there is a hang already"]);
}

#[test]
fn changes_beside_a_hang() {
    let mut hang = document(HANG);
    let before = write::document(&hang);
    let sources = [Source::new("changes", "[changes]\n- m1 -carries-> \"7\"\n+ \"motor 2\" -carries-> \"7\"\n")];
    assert!(read_changes(&mut hang, &sources).document.is_some());
    let changes = hang.changes.take().unwrap();
    assert_eq!(changes.changes.len(), 2);
    assert!(hang.changes_fault.is_none());
    assert_eq!(write::document(&hang), before);
    let wrong = [Source::new("changes", "[changes]\n+ m1 -carrys-> \"7\"\n")];
    let reading = read_changes(&mut hang, &wrong);
    assert_eq!(reasons(&reading), ["no connection of kind 'carrys' is in the hang"]);
    let there = [Source::new("changes", "[changes]\n+ m1 -carries-> \"7\"\n")];
    read_changes(&mut hang, &there);
    assert_eq!(hang.changes_fault.unwrap().refusal, Some(28));
}

#[test]
fn a_pattern_without_its_hang() {
    let text = "[query]\na: \"chain motor\"\nvertex b\na -x-> b\nb -\"y z\"-> a\n";
    assert_eq!(
        words_as_kinds(text),
        "[kinds]\nitem a\nitem b\nitem \"chain motor\"\nconnection x\nconnection \"y z\"\n"
    );
    let own = "[kinds]\nitem motor\n[query]\na: motor\nvertex b\na -x-> b\n";
    assert_eq!(words_as_kinds(own), "[kinds]\nconnection x\n");
}

#[test]
fn a_pattern_from_json() {
    let pattern = json!({
        "name": "old one", "sentence": "An old\none.",
        "vertices": [
            { "name": "a b", "kind": "motor", "days": { "first": "", "last": "2025-12-31" } },
            { "name": "3", "kind": 7 },
            { "kind": null },
        ],
        "edges": [{ "from": 0, "to": 1, "kind": "x y" }, { "from": 1, "to": 2, "kind": null }],
        "pairs": [{ "low": 0, "high": 1 }],
    });
    let written = Written::of(&pattern).unwrap().text;
    let expected =
        "[query \"old one\"] # An old one.\n\"a b\": motor inspected ..2025-12-31\nvertex 3 label 7\nvertices 1\n\
                    \"a b\" -\"x y\"-> \"3\"\n\"3\" -any-> 2\n\"a b\" < \"3\"\n";
    assert_eq!(written, expected);
    let broken = json!({ "vertices": [{ "name": "a", "days": { "first": "1\n[query]", "last": "" } }] });
    let text = Written::of(&broken).unwrap().text;
    let sources = [Source::new("kinds", words_as_kinds(&text)), Source::new("pattern", text)];
    assert!(read(&sources).document.is_none());
}

#[test]
fn a_picture_has_every_item_and_connection() {
    let hang = document(&HANG.replace("beam: beam", "\"<b&m>\": beam").replace("beam -carries", "\"<b&m>\" -carries"));
    let drawing = Drawing::of(&hang, hang.hang.as_ref().unwrap(), None, false);
    let svg = drawing.svg();
    assert_eq!((svg.matches("<rect").count(), svg.matches("marker-end").count()), (5, 3));
    assert!(svg.contains("&lt;b&amp;m&gt;") && !svg.contains("<b&m>"));
    assert_eq!(svg, Drawing::of(&hang, hang.hang.as_ref().unwrap(), None, false).svg());
    let rows = |name: &str| {
        let after = &svg[..svg.find(&format!(">{name}</text>")).unwrap()];
        let y = after.rfind("<rect").map(|i| after[i..].split("y=\"").nth(1).unwrap().split('"').next().unwrap());
        y.unwrap().parse::<u32>().unwrap()
    };
    assert!(rows("&lt;b&amp;m&gt;") < rows("m1") && rows("m1") < rows("7"), "what carries stands above");
}

/// Rings, loops and both directions have a picture too.
#[test]
fn pictures_of_rings() {
    let ring = document("[graph]\nvertices 5\n0 -1-> 1\n1 -1-> 2\n2 -1-> 0\n2 -1-> 1\n3 -1-> 3\n");
    let svg = Drawing::of(&ring, ring.hang.as_ref().unwrap(), None, false).svg();
    assert_eq!(
        (svg.matches("<rect").count(), svg.matches("marker-end").count(), svg.matches("marker-start").count()),
        (6, 4, 1)
    );
    let many: String = (0..60).map(|i| format!("{i} -1-> {}\n", (i + 1) % 60)).collect();
    let many = document(&format!("[graph]\nvertices 60\n{many}"));
    assert_eq!(Drawing::of(&many, many.hang.as_ref().unwrap(), None, false).svg().matches("<rect").count(), 61);
    let none = document("[graph]\n");
    assert!(Drawing::of(&none, none.hang.as_ref().unwrap(), None, false).svg().ends_with("</svg>\n"));
}
