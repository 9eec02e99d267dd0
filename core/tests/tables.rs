//! Tables as spreadsheets save them, and back.

use rizhavaan_core::document::Hang;
use rizhavaan_core::tables::tables;
use rizhavaan_core::{read, write, Document, Source};

const ITEMS: &str = "name,kind,day\nm1,motor,2026-04-20\nm2,motor,\nt1,truss,\n";
const CONNECTIONS: &str = "from,kind,to\nm1,carries,t1\nm2,carries,t1\n";

fn sources(items: &[u8], connections: &[u8]) -> Vec<Source> {
    vec![Source::new("items.csv", items), Source::new("connections.csv", connections)]
}

fn document(items: &str, connections: &str) -> Document {
    let sources = sources(items.as_bytes(), connections.as_bytes());
    let reading = read(&sources);
    reading.document.unwrap_or_else(|| panic!("{:?}", said(items, connections)))
}

fn said(items: &str, connections: &str) -> Vec<String> {
    let sources = sources(items.as_bytes(), connections.as_bytes());
    let reading = read(&sources);
    let faults = reading.faults.faults.iter();
    faults
        .map(|f| {
            let at = f.place.locate(&reading.texts);
            format!("{}:{}:{}+{} {}", at.file, at.line, at.column, at.length, f.reason)
        })
        .collect()
}

/// Items by name, kind and day, and connections, in words.
fn words(document: &Document) -> Vec<String> {
    let hang = document.hang.as_ref().unwrap();
    let items = (0..).zip(&hang.graph.vertices).map(|(i, v)| {
        let kind = document.item_kinds.name(v.label).unwrap_or("-");
        format!("{} {kind} {}", hang.item(i), v.day)
    });
    items.chain(hang.graph.edges.iter().map(|e| document.hang_edge(hang, e))).collect()
}

const EXPECTED: [&str; 5] = ["m1 motor 2026-04-20", "m2 motor 0", "t1 truss 0", "m1 -carries-> t1", "m2 -carries-> t1"];

#[test]
fn separators_ends_and_marks() {
    assert_eq!(words(&document(ITEMS, CONNECTIONS)), EXPECTED);
    for separator in [";", "\t"] {
        let [items, connections] = [ITEMS, CONNECTIONS].map(|t| t.replace(',', separator));
        assert_eq!(words(&document(&items, &connections)), EXPECTED);
    }
    let [items, connections] = [ITEMS, CONNECTIONS].map(|t| format!("\u{feff}{}", t.replace('\n', "\r\n")));
    assert_eq!(words(&document(&items, &connections)), EXPECTED);
    let [items, connections] =
        [ITEMS, CONNECTIONS].map(|t| t.trim_end().replace("name", "Name").replace("kind", " KIND "));
    assert_eq!(words(&document(&items, &connections)), EXPECTED);
}

#[test]
fn quotes_and_blank_lines() {
    let items = "\"name\",\"kind\",\"day\"\r\n\"Motor 3, \"\"spare\"\"\",\"chain motor\",\"2026-04-20\"\r\n\r\n,,\r\nt1,truss,\r\n";
    let connections = "from,kind,to\n\"Motor 3, \"\"spare\"\"\",\"hangs, from\",t1\n";
    let document = document(items, connections);
    assert_eq!(
        words(&document),
        ["Motor 3, \"spare\" chain motor 2026-04-20", "t1 truss 0", "Motor 3, \"spare\" -hangs, from-> t1"]
    );
}

#[test]
fn both_ways() {
    let items =
        "name,kind,day,weight,owner\nm1,motor,2026-04-20,\"12,5 kg\",\nm2,motor,,,\"A \"\"B\"\" Ltd\"\n0ad,3,,,\n";
    let connections = "from,kind,to\nm1,carries,m2\nm1,7,0ad\n";
    let first = document(items, connections);
    let hang = |d: &Document| -> Hang { d.hang.clone().unwrap() };
    let [items, connections] = tables(&first, &hang(&first)).map(|t| String::from_utf8(t).unwrap());
    let second = document(&items, &connections);
    assert_eq!(words(&second), words(&first));
    assert_eq!(hang(&second).notes, hang(&first).notes);
    assert_eq!(hang(&second).graph, hang(&first).graph);
    // And by the text form.
    let text = write::document(&first);
    let sources = [Source::new("hang.txt", text.as_str())];
    let third = read(&sources).document.unwrap();
    assert_eq!(words(&third), words(&first));
    assert_eq!(hang(&third).notes, hang(&first).notes);
    assert_eq!(tables(&third, &hang(&third)).map(|t| String::from_utf8(t).unwrap()), [items, connections]);
}

#[test]
fn cells_that_are_wrong() {
    for (items, expected) in [
        ("name,kind,day\nm1,motor,20.4.2026\n", "items.csv:2:10+9 '20.4.2026' is no day: write a date like 2026-11-15, or the days since 2000-01-01"),
        ("name,kind,day\nm1,motor,46132\n", "items.csv:2:10+5 '46132' is no date"),
        ("name,kind,day\nm1,motor,2026-02-30\n", "items.csv:2:10+10 2026-02-30 is no date: that month has days 1 to 28"),
        ("name,kind,day\nm1,motor,\nm1,truss,\n", "items.csv:3:1+2 'm1' is the name of item 0 already"),
        ("name,kind,day\n,motor,\n", "items.csv:2:1+0 a name has at least one letter, digit or sign"),
        ("name,kind,day\nm1,motor,,x\n", "items.csv:2:11+1 the row has more cells than the head's 3"),
        ("name,kind,day\n\"m1,motor,\n", "items.csv:2:1+1 the quotation mark is not closed"),
        ("name,kind,day\nm\"1,motor,\n", "items.csv:2:2+1 a cell with a quotation mark stands in quotes, and the mark is written twice"),
        ("name,kind,kind\nm1,motor,\n", "items.csv:1:1+14 two columns are named 'kind'"),
        ("nam,kind\nm1,motor\n", "items.csv:1:1+8 expected a head with 'name' and 'kind', a table of items, or with 'from', 'kind' and 'to', a table of connections"),
        ("", "items.csv:1:1+0 expected a head with 'name' and 'kind', a table of items, or with 'from', 'kind' and 'to', a table of connections"),
    ] {
        assert_eq!(said(items, "from,kind,to\n"), [expected], "{items}");
    }
    for (connections, expected) in [
        ("from,kind,to\nm1,carries,t2\n", "connections.csv:2:12+2 no item 't2' has been declared"),
        ("from,kind,to\n\"m1\",carries,\"t,2\"\n", "connections.csv:2:14+5 no item 't,2' has been declared"),
        ("from,kind,to\nm1,,t1\n", "connections.csv:2:4+0 a connection has a kind"),
        ("from,kind,to\nm1,0,t1\n", "connections.csv:2:4+1 edge label 0 is not within 1 to 255"),
        (
            "from,kind,to\nm1,carries,t1\nm2,carries,t1\nm1,carries,t1\n",
            "connections.csv:4:1+0 the edge stands at line 2 already",
        ),
    ] {
        assert_eq!(said(ITEMS, connections), [expected], "{connections}");
    }
}

#[test]
fn declared_kinds_hold_for_tables() {
    let mut sources = sources(ITEMS.replace("m2,motor", "m2,motr").as_bytes(), CONNECTIONS.as_bytes());
    let kinds = "[kinds]\nitem motor\nitem truss\nconnection carries\n";
    sources.push(Source::new("rules.txt", kinds));
    let reading = read(&sources);
    let fault = &reading.faults.faults[0];
    let at = fault.place.locate(&reading.texts);
    assert_eq!((at.file, at.line, at.column, at.length), ("items.csv", 3, 4, 4));
    assert_eq!(fault.reason, "no kind of item 'motr' is declared in [kinds]");
    assert_eq!(fault.help.as_deref(), Some("did you mean 'motor'?"));
}

#[test]
fn a_table_that_is_not_utf8() {
    let sources = sources(b"name,kind\nm\xfc,motor\n", CONNECTIONS.as_bytes());
    let reading = read(&sources);
    assert!(reading.document.is_none());
    assert!(reading.faults.faults.iter().any(|f| f.reason == "the text is not UTF-8"));
}
