//! `rizhavaan pack` and `unpack`: what they write and their exit status.

mod common;

use std::fs;
use std::path::Path;

use common::{examples, folder, run};

const TEXT: &str = "[graph]\nvertices 2 label 7  # 0 to 1\n0 -1-> 1\n\
                    [query]\nvertices 2 label 0  # 0 to 1\n0 -1-> 1\n\
                    [plan]\nscan 0 -1-> 1\n";

fn quiet() -> (i32, String, String) {
    (0, String::new(), String::new())
}

/// Packs a text in a folder; its files unpack to it.
fn comes_back(dir: &Path, text: &str) {
    fs::write(dir.join("hang.txt"), text).unwrap();
    assert_eq!(run(dir, &["pack", "hang.txt"]), quiet());
    assert_eq!(run(dir, &["unpack", "."]), (0, text.to_string(), String::new()));
}

/// A text is not packed: its reason and place are told, and the files stay.
fn is_refused(dir: &Path, text: &str, place: &str, reason: &str) {
    let before = run(dir, &["unpack", "."]);
    fs::write(dir.join("bad.txt"), text).unwrap();
    let (status, out, err) = run(dir, &["pack", "bad.txt"]);
    assert_eq!((status, out.as_str()), (2, ""));
    assert!(err.contains(&format!("bad.txt:{place}")) && err.contains(reason), "{err}");
    assert_eq!(run(dir, &["unpack", "."]), before);
}

#[test]
fn packs_beside_the_text_and_elsewhere() {
    let dir = folder("packs");
    fs::create_dir(dir.join("other")).unwrap();
    comes_back(&dir, TEXT);
    assert_eq!(run(&dir, &["pack", "hang.txt", "other"]), quiet());
    assert_eq!(run(&dir, &["unpack", "other"]), (0, TEXT.to_string(), String::new()));
    assert!(!dir.join("names.txt").exists());
}

#[test]
fn what_comes_back() {
    let dir = folder("back");
    let any =
        TEXT.replace("0 -1-> 1\n[plan]", "0 -any-> 1\n0 -1-> 1\n[plan]").replace("scan 0 -1-> 1", "scan 0 -any-> 1");
    comes_back(&dir, &any);
    is_refused(&dir, &any.replace("-any->", "-0->"), "6:4", "for an edge of any label write 'any', not 0");
    comes_back(&dir, &TEXT.replace("[plan]", "0 < 1\n[plan]"));
    is_refused(&dir, &TEXT.replace("[plan]", "1 < 1\n[plan]"), "7:1", "a pair has two different vertices");
    let changes = format!("{TEXT}[changes]\n- 0 -1-> 1\n+ 0 -2-> 0\n+ 1 -1-> 0\n");
    comes_back(&dir, &changes);
    is_refused(&dir, &changes.replace("0 -2-> 0", "0 -2-> 2"), "11:10", "no item '2' has been declared");
    is_refused(&dir, &TEXT.replace("label 7", "label 7 day 2026-02-29"), "2:24", "that month has days 1 to 28");
}

/// Days come back as they were given: dates as dates, numbers as numbers.
#[test]
fn days_come_back() {
    let dir = folder("days");
    let text = "[graph]\n\
                vertices 2 label 3 day 2026-11-15  # 0 to 1\n\
                vertices 1 label 3  # 2 to 2\n\
                vertices 1 label 0 day 2179-06-06  # 3 to 3\n\
                0 -1-> 1\n\
                [query]\n\
                vertices 1 label 3 inspected 2025-01-01..2026-06-30  # 0 to 0\n\
                vertices 1 label 3 inspected ..2026-06-30  # 1 to 1\n\
                vertices 2 label 0 inspected 2000-01-02..  # 2 to 3\n\
                vertices 1 label 0  # 4 to 4\n\
                0 -1-> 1\n1 -1-> 2\n2 -1-> 3\n3 -1-> 4\n";
    comes_back(&dir, text);
    let packed: Vec<_> = ["g.bin", "q.bin"].iter().map(|f| fs::read(dir.join(f)).unwrap()).collect();
    let numbers = text
        .replace("2026-11-15", "9815")
        .replace("2179-06-06", "65535")
        .replace("2025-01-01..2026-06-30", "9132..9677")
        .replace("..2026-06-30", "..9677")
        .replace("2000-01-02..", "1..");
    comes_back(&dir, &numbers);
    let again: Vec<_> = ["g.bin", "q.bin"].iter().map(|f| fs::read(dir.join(f)).unwrap()).collect();
    assert_eq!(again, packed);
}

/// Names, kinds, notes, the pattern's name, its sentence and what is expected of it come back.
#[test]
fn names_come_back() {
    let dir = folder("names");
    let text = "[kinds]\n\
                item truss 1\n\
                item \"chain motor\" 7\n\
                connection carries 1\n\
                connection \"safety wire\" 9\n\
                [graph]\n\
                front: truss day 2026-04-20\n\
                \"Motor 3 (spare)\": \"chain motor\" day 9815 note weight \"12 kg\"\n\
                vertices 2 \"chain motor\"  # 2 to 3\n\
                vertex x label 12\n\
                vertex y\n\
                7: truss\n\
                front -carries-> \"Motor 3 (spare)\"\n\
                front -\"safety wire\"-> 2\n\
                2 -44-> x\n\
                y -1-> \"7\"\n\
                [query \"two motors\"] # Two motors.\n\
                expect at most 3\n\
                a: truss\n\
                b: \"chain motor\" inspected ..9815\n\
                a -carries-> b\n\
                [changes]\n\
                - front -carries-> \"Motor 3 (spare)\"\n\
                + x -carries-> y\n"
        .replace("y -1-> ", "y -carries-> ");
    comes_back(&dir, &text);
    assert!(dir.join("names.txt").exists());
    // A text without names leaves none that would be wrong.
    fs::write(dir.join("plain.txt"), TEXT).unwrap();
    assert_eq!(run(&dir, &["pack", "plain.txt"]), quiet());
    assert!(!dir.join("names.txt").exists());
}

#[test]
fn a_missing_section_leaves_its_file() {
    let dir = folder("section");
    comes_back(&dir, TEXT);
    fs::write(dir.join("empty.txt"), "[graph]\n").unwrap();
    assert_eq!(run(&dir, &["pack", "empty.txt"]), quiet());
    let query = TEXT.find("[query]").unwrap();
    assert_eq!(run(&dir, &["unpack", "."]).1, format!("[graph]\n{}", &TEXT[query..]));
    comes_back(&dir, TEXT);
    fs::write(dir.join("two.txt"), TEXT.replace("[plan]\nscan 0 -1-> 1\n", "[query b]\nvertices 2\n0 -1-> 1\n"))
        .unwrap();
    let (status, _, err) = run(&dir, &["pack", "two.txt"]);
    assert_eq!((status, err.as_str()), (2, "error: q.bin holds one pattern; choose it with --pattern: query, b\n"));
    assert_eq!(run(&dir, &["pack", "two.txt", "--pattern", "b"]), quiet());
}

/// What the engine will refuse although it is well formed is packed with a warning.
#[test]
fn warnings_pack() {
    let dir = folder("warnings");
    for (text, place, warning) in [
        (
            "[query]\nvertices 3\n0 -1-> 1\n[plan]\nscan 0\n",
            "1:1",
            "the query is not connected; the engine will refuse this with 11",
        ),
        (
            "[query]\nvertices 3\n0 -1-> 1\n1 -1-> 2\n[plan]\nscan 0\n",
            "5:1",
            "vertex 2 is not covered; the engine will refuse this with 18",
        ),
        (
            "[query]\nvertices 2\n0 -1-> 1\n0 < 1\n1 < 0\n",
            "5:1",
            "the pairs above contradict 1 < 0; nothing will match",
        ),
        (
            "[graph]\nvertices 2\n0 -1-> 1\n[changes]\n+ 0 -1-> 1\n",
            "5:1",
            "the graph has the edge 0 -1-> 1 already; the engine will refuse this with 28",
        ),
    ] {
        fs::write(dir.join("hang.txt"), text).unwrap();
        let (status, out, err) = run(&dir, &["pack", "hang.txt"]);
        assert_eq!((status, out.as_str()), (0, ""), "{err}");
        assert!(err.contains(&format!("hang.txt:{place}")) && err.contains(&format!("warning: {warning}")), "{err}");
    }
    assert!(dir.join("q.bin").exists() && dir.join("p.bin").exists() && dir.join("c.bin").exists());
}

#[test]
fn malformed_files_are_named() {
    let dir = folder("malformed");
    let refused = |message: &str| (2, String::new(), format!("error: {message}\n"));
    assert_eq!(run(&dir, &["unpack", "."]), refused(".: no g.bin, q.bin, p.bin or c.bin"));
    fs::write(dir.join("p.bin"), [8, 0]).unwrap();
    assert_eq!(run(&dir, &["unpack", "."]), refused("./p.bin: there is no q.bin beside it (refusal 6)"));
    fs::write(dir.join("g.bin"), [0, 0, 0, 0, 1]).unwrap();
    assert_eq!(run(&dir, &["unpack", "."]), refused("./g.bin: a fill bit is set (refusal 2)"));
    fs::remove_file(dir.join("p.bin")).unwrap();
    fs::remove_file(dir.join("g.bin")).unwrap();
    fs::write(dir.join("c.bin"), [0, 0, 0]).unwrap();
    assert_eq!(run(&dir, &["unpack", "."]), refused("./c.bin: there is no g.bin beside it (refusal 1)"));
    fs::write(dir.join("g.bin"), [0, 0, 0, 0, 0]).unwrap();
    assert_eq!(run(&dir, &["unpack", "."]), (0, "[graph]\n[changes]\n".into(), String::new()));
    fs::write(dir.join("c.bin"), [0, 0, 1]).unwrap();
    assert_eq!(run(&dir, &["unpack", "."]), refused("./c.bin: a fill bit is set (refusal 27)"));
    fs::remove_file(dir.join("c.bin")).unwrap();
    for (names, message) in [
        ("[items]\n0 a\n", "line 2: there is no number 0 in the packed files"),
        ("0 a\n", "line 1: no section yet"),
        ("[items\n", "line 1: expected [kinds], [items] or [query]"),
        ("[kinds]\nitem a 0\n", "line 2: the number of a kind is wrong"),
    ] {
        fs::write(dir.join("names.txt"), names).unwrap();
        assert_eq!(run(&dir, &["unpack", "."]), refused(&format!("./names.txt: {message}")));
    }
}

/// Each example's text packs to the files beside it.
#[test]
fn the_examples_are_packed() {
    let dir = folder("examples");
    let mut count = 0;
    for example in examples() {
        if !example.join("g.bin").exists() {
            continue;
        }
        let text = example.join("hang.txt");
        let (status, _, err) = run(&dir, &["pack", text.to_str().unwrap(), "."]);
        assert_eq!(status, 0, "{err}");
        for name in ["g.bin", "q.bin", "p.bin", "c.bin"] {
            if let Ok(bytes) = fs::read(example.join(name)) {
                assert_eq!(bytes, fs::read(dir.join(name)).unwrap(), "{example:?} {name}");
            }
        }
        count += 1;
    }
    assert!(count >= 8);
}

/// A folder to write to is made where it is not there; where the text has errors, none is.
#[test]
fn folders_are_made() {
    let dir = folder("made");
    fs::write(dir.join("hang.txt"), "[graph]\nvertices 2\n0 -1-> 1\n[query]\nvertices 2\n0 -1-> 1\n").unwrap();
    let (status, _, err) = run(&dir, &["pack", "hang.txt", "packed/here"]);
    assert_eq!((status, dir.join("packed/here/g.bin").is_file()), (0, true), "{err}");
    let (status, _, err) = run(&dir, &["export", "hang.txt", "-o", "tables"]);
    assert_eq!((status, dir.join("tables/items.csv").is_file()), (0, true), "{err}");
    fs::write(dir.join("wrong.txt"), "[graph]\nvertices x\n").unwrap();
    let (status, _, _) = run(&dir, &["pack", "wrong.txt", "none"]);
    assert_eq!((status, dir.join("none").exists()), (2, false));
}
