//! Kinds, names, several patterns and several files, and what is said of those that are wrong.

use rizhavaan_core::document::Expect;
use rizhavaan_core::text::fault::Severity;
use rizhavaan_core::{read, write, Document, Source};

/// What is said of files: severity, file, line, column, length, reason and help.
fn said(files: &[(&str, &str)]) -> Vec<String> {
    let sources: Vec<Source> = files.iter().map(|&(name, text)| Source::new(name, text)).collect();
    let reading = read(&sources);
    let fault = |f: &rizhavaan_core::text::fault::Fault| {
        let at = f.place.locate(&reading.texts);
        let word = if f.severity == Severity::Error { "error" } else { "warning" };
        let help = f.help.as_ref().map_or_else(String::new, |h| format!(" [{h}]"));
        format!("{}:{}:{}+{} {word}: {}{help}", at.file, at.line, at.column, at.length, f.reason)
    };
    reading.faults.faults.iter().map(fault).collect()
}

fn document(files: &[(&str, &str)]) -> Document {
    let sources: Vec<Source> = files.iter().map(|&(name, text)| Source::new(name, text)).collect();
    let reading = read(&sources);
    reading.document.unwrap_or_else(|| panic!("{:?}", said(files)))
}

fn one(text: &str) -> Document {
    document(&[("hang.txt", text)])
}

fn labels(document: &Document) -> Vec<u32> {
    document.hang.as_ref().unwrap().graph.vertices.iter().map(|v| v.label).collect()
}

fn edges(document: &Document) -> Vec<(u32, u32, u32)> {
    let graph = &document.hang.as_ref().unwrap().graph;
    graph.edges.iter().map(|e| (e.source, e.label, e.target)).collect()
}

#[test]
fn kinds_by_name_and_number() {
    let text = "[kinds]\nitem truss\nitem motor 7\nitem \"base plate\" = 1\nconnection carries\nconnection \"safety wire\" 200\n\
                [graph]\nt: truss\nvertex m motor day 2026-04-20\nvertices 2 label truss\n\"base plate\": \"base plate\"\n\
                vertex x label 9\nm -carries-> t\nm -\"safety wire\"-> 2\nm -5-> 3\n";
    let document = one(text);
    // 1, 7 and 9 are taken, and so is 5 of the connections.
    assert_eq!(labels(&document), [2, 7, 2, 2, 1, 9]);
    assert_eq!(edges(&document), [(1, 1, 0), (1, 5, 3), (1, 200, 2)]);
}

#[test]
fn numbers_are_dealt_past_those_that_are_written() {
    let document = one("[graph]\na: pin\nb: motor\nvertex c label 1\nvertex d label 3\na -holds-> b\na -1-> c\n");
    assert_eq!(labels(&document), [2, 4, 1, 3]);
    assert_eq!(edges(&document), [(0, 1, 2), (0, 2, 1)]);
}

#[test]
fn kinds_hold_for_all_files() {
    let files = [("hang.txt", "[graph]\na: motor\nb: motr\n"), ("rules.txt", "[kinds]\nitem motor\n")];
    let expected = "hang.txt:3:4+4 error: no kind of item 'motr' is declared in [kinds] [did you mean 'motor'?]";
    assert_eq!(said(&files), [expected]);
}

#[test]
fn wrong_words_of_patterns() {
    let hang = "[graph]\na: motor\nb: truss\na -carries-> b\n";
    for (pattern, expected) in [
        (
            "x: motr\ny: truss\nx -carries-> y\n",
            "rules.txt:2:4+4 error: no item of kind 'motr' is in the hang [did you mean 'motor'?]",
        ),
        (
            "x: motor\ny: truss\nx -caries-> y\n",
            "rules.txt:4:4+6 error: no connection of kind 'caries' is in the hang [did you mean 'carries'?]",
        ),
        (
            "front: motor\ny: truss\nfrnt -carries-> y\n",
            "rules.txt:4:1+4 error: no vertex 'frnt' has been declared [did you mean 'front'?]",
        ),
        (
            "x: Motor\ny: truss\nx -carries-> y\n",
            "rules.txt:2:4+5 error: no item of kind 'Motor' is in the hang [did you mean 'motor'?]",
        ),
    ] {
        let rules = format!("[query q]\n{pattern}");
        assert_eq!(said(&[("hang.txt", hang), ("rules.txt", &rules)]), [expected], "{pattern}");
    }
    // A kind that is declared may be missing in the hang.
    let text = "[kinds]\nitem motor\nitem lamp\nconnection carries\n[graph]\na: motor\n[query]\nx: lamp\ny: any\nx -carries-> y\n";
    assert!(said(&[("hang.txt", text)]).is_empty());
    // A number is a number, with a warning where nothing has it.
    let text = "[graph]\nvertices 2 label 3\n0 -1-> 1\n[query]\nvertex x label 4\nvertex y\nx -1-> y\n";
    assert_eq!(
        said(&[("hang.txt", text)]),
        ["hang.txt:4:1+7 warning: no item of the hang has label 4; nothing will match"]
    );
}

#[test]
fn kinds_that_look_alike_are_warned_of() {
    let text = "[graph]\na: motor\nb: motr\nc: Motor\nd: motor1\ne: motor2\na -x-> b\n";
    let two = |a: &str, b: &str, line: usize, length: usize| {
        format!(
            "hang.txt:{line}:4+{length} warning: the kinds '{a}' and '{b}' are two, and look like one \
             [name the kinds in [kinds], and others are errors]"
        )
    };
    assert_eq!(said(&[("hang.txt", text)]), [two("motor", "motr", 3, 4), two("motor", "Motor", 4, 5)]);
    let text = text.replace("[graph]", "[kinds]\nitem motor\nitem motr\nitem Motor\nitem motor1\nitem motor2\n[graph]");
    assert!(said(&[("hang.txt", &text)]).is_empty());
}

#[test]
fn names_as_people_have_them() {
    let names = [
        "libstdc++6",
        "python3.11",
        "0ad",
        "Motor 3 (spare)",
        "Träger-Süd",
        "a->b",
        "-x",
        "x#y",
        "say \"hi\"",
        "vertex",
        "a:b",
    ];
    let mut text = String::from("[graph]\n");
    for name in names {
        text += &format!("{}: thing\n", rizhavaan_core::text::words::quote(name));
    }
    text += "libstdc++6 -1-> python3.11\n0ad -1-> \"Motor 3 (spare)\"\nTräger-Süd -1-> \"a->b\"\n\"-x\" -1-> \"say \"\"hi\"\"\"\n";
    let document = one(&text);
    let hang = document.hang.as_ref().unwrap();
    let read: Vec<String> = (0..names.len() as u32).map(|i| hang.item(i).into_owned()).collect();
    assert_eq!(read, names);
    assert_eq!(edges(&document), [(0, 1, 1), (2, 1, 3), (4, 1, 5), (6, 1, 8)]);
    // And back.
    let again = one(&write::document(&document));
    assert_eq!(again.hang.unwrap().names, hang.names);
}

#[test]
fn bare_numbers_and_names_of_digits() {
    // Nothing is named so: the number.
    assert_eq!(edges(&one("[graph]\nvertex a\nvertex b\n0 -1-> 1\n")), [(0, 1, 1)]);
    // A name, and no item has the number.
    assert_eq!(edges(&one("[graph]\n7: x\n8: x\n7 -1-> 8\n")), [(0, 1, 1)]);
    // Both, and they are the same.
    assert_eq!(edges(&one("[graph]\n0: x\n1: x\n0 -1-> 1\n")), [(0, 1, 1)]);
    // Both, and they are not.
    let text = "[graph]\n1: x\n0: x\n0 -1-> \"1\"\n";
    let both = "hang.txt:4:1+1 error: '0' is the name of one item and the number of another [write \"0\" for the one of that name]";
    assert_eq!(said(&[("hang.txt", text)]), [both]);
    assert_eq!(edges(&one("[graph]\n1: x\n0: x\n\"0\" -1-> \"1\"\n")), [(1, 1, 0)]);
    // A list could mean either.
    let text = "[graph]\nvertices 2 x\n1: x\n";
    assert_eq!(said(&[("hang.txt", text)]), ["hang.txt:3:1+1 error: '1' is also the number of an item without a name"]);
}

#[test]
fn several_patterns() {
    let text = "[graph]\nvertices 2\n0 -1-> 1\n\
                [query one] # The first one.\nexpect 0\nvertices 2\n0 -1-> 1\n[plan]\nscan 0\n\
                [query \"the other\"]\nexpect at least 2\nvertices 2\n1 -1-> 0\n\
                [query third]\nexpect at most 3\nvertices 2\n1 -1-> 0\n[plan \"the other\"]\nscan 0\n";
    let document = one(text);
    let read: Vec<_> =
        document.patterns.iter().map(|p| (p.title(), p.sentence.as_deref(), p.expect, p.plan.is_some())).collect();
    assert_eq!(
        read,
        [
            ("one", Some("The first one."), Some(Expect::Exactly(0)), true),
            ("the other", None, Some(Expect::AtLeast(2)), true),
            ("third", None, Some(Expect::AtMost(3)), false),
        ]
    );
    let again = one(&write::document(&document));
    let titles: Vec<&str> = again.patterns.iter().map(|p| p.title()).collect();
    assert_eq!(titles, ["one", "the other", "third"]);
    assert!(again
        .patterns
        .iter()
        .zip(&document.patterns)
        .all(|(a, b)| { (&a.query, &a.plan, a.expect, &a.sentence) == (&b.query, &b.plan, b.expect, &b.sentence) }));
}

#[test]
fn patterns_that_are_not_told_apart() {
    let q = "vertices 2\n0 -1-> 1\n";
    for (text, expected) in [
        (format!("[query]\n{q}[query]\n{q}"), "4:1+7 error: a second [query]; the first is at line 1 [give each a name, as in [query two-motors]]"),
        (format!("[query a]\n{q}[query a]\n{q}"), "4:1+9 error: a second [query a]; the first is at line 1"),
        (format!("[plan]\nscan 0\n[query a]\n{q}[query b]\n{q}"), "1:1+6 error: which query is this plan for? Write it below its [query], or with its name: [plan NAME]"),
        (format!("[query abc]\n{q}[plan abd]\nscan 0\n"), "4:1+10 error: no [query abd] for this plan [did you mean 'abc'?]"),
        (format!("[query a]\n{q}[plan]\nscan 0\n[plan a]\nscan 0\n"), "6:1+8 error: a second [plan] of the query 'a'"),
        (format!("[query a b]\n{q}"), "1:1+11 error: '[query a b]' is no section; expected [kinds], [graph], [query], [plan] or [changes]"),
        (format!("[qery a]\n{q}"), "1:1+8 error: '[qery a]' is no section; expected [kinds], [graph], [query], [plan] or [changes] [did you mean 'query'?]"),
        (format!("[query a]\nexpect some\n{q}"), "2:1+11 error: expected 'expect 0', 'expect at least 1' or 'expect at most 2'"),
        (format!("[query a]\nexpect 0\nexpect 1\n{q}"), "3:1+8 error: a second 'expect'"),
    ] {
        assert_eq!(said(&[("hang.txt", &text)]), [format!("hang.txt:{expected}")], "{text}");
    }
}

/// A vertex that is named as a word of the form is one where it stands as one.
#[test]
fn vertices_named_expect_and_day() {
    let text = "[query]\nvertex expect\nvertex day\nexpect -1-> day\nexpect < day\n";
    let document = one(text);
    assert_eq!(document.patterns[0].query.pairs.len(), 1);
    assert_eq!(document.patterns[0].expect, None);
}

#[test]
fn all_errors_at_once() {
    let text = "[graph]\na: motor day 2026-02-30\nb: motor\na -carries-> c\nd -carries-> b\nb -x\n\"q: motor\n\
                [query]\nx: motor inspected 5\ny: lamp\nx -lifts-> y\n";
    let lines: Vec<String> =
        said(&[("hang.txt", text)]).iter().map(|s| s.split(" error").next().unwrap().to_string()).collect();
    assert_eq!(
        lines,
        [
            "hang.txt:2:14+10",
            "hang.txt:4:14+1",
            "hang.txt:5:1+1",
            "hang.txt:6:1+4",
            "hang.txt:7:1+9",
            "hang.txt:9:20+1",
            "hang.txt:10:4+4",
            "hang.txt:11:4+5"
        ]
    );
}

#[test]
fn kinds_with_blanks_want_quotes() {
    let text = "[graph]\nvertices 2\n0 -safety wire-> 1\n";
    let expected = "hang.txt:3:3+14 error: a kind with blanks stands in quotes [write -\"safety wire\"->]";
    assert_eq!(said(&[("hang.txt", text)]), [expected]);
}

#[test]
fn files_that_are_one_text() {
    let files = [
        ("rules.txt", "\u{feff}[query]\na: motor\nb: truss\na -carries-> b\n"),
        ("hang.txt", "[graph]\r\nm: motor\r\nt: truss\r\nm -carries-> t\r\n"),
    ];
    let document = document(&files);
    assert_eq!(document.patterns[0].query.vertices[0].label, labels(&document)[0]);
    let twice = [("a.txt", "[graph]\nvertices 1\n"), ("b.txt", "[graph]\nvertices 1\n")];
    assert_eq!(said(&twice), ["b.txt:1:1+7 error: a second [graph]; the first is at a.txt:1"]);
    let twice = [("a.txt", "[graph]\nx: y\nz: y\nx -1-> z\nx -1-> z\n")];
    assert_eq!(said(&twice), ["a.txt:5:1+8 error: the edge stands at line 4 already"]);
}

/// A connection may stand above the items that it joins.
#[test]
fn order_of_lines() {
    assert_eq!(edges(&one("[graph]\na -1-> b\nb: x\na: x\n")), [(1, 1, 0)]);
}
