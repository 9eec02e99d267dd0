//! `rizhavaan find`: what it prints, where it goes, and its exit status.

mod common;

use std::fs;
use std::io::Read;
use std::process::Stdio;

use common::{folder, program, run};
use serde_json::Value;

const HANG: &str = "[kinds]
item truss
item pin
item motor
connection bolted
connection carries
[graph]
front: truss
\"back truss\": truss
p1: pin
p2: pin
m1: motor day 2025-04-20
m2: motor day 2026-04-20
m3: motor
front -bolted-> p1
\"back truss\" -bolted-> p2
p1 -carries-> m1
p1 -carries-> m2
p2 -carries-> m3
";

const RULES: &str = "[query two-motors] # Two motors on one pin.
expect 0
pin: pin
a: motor
b: motor
pin -carries-> a
pin -carries-> b
[query lapsed] # A motor that was not inspected since 1 May 2025.
expect at least 1
truss: truss
pin: pin
motor: motor inspected ..2025-04-30
truss -bolted-> pin
pin -carries-> motor
[query lamps]
truss: truss
motor: motor
truss -carries-> motor
";

fn rig(test: &str) -> std::path::PathBuf {
    let dir = folder(test);
    fs::write(dir.join("hang.txt"), HANG).unwrap();
    fs::write(dir.join("rules.txt"), RULES).unwrap();
    dir
}

#[test]
fn a_table_of_names() {
    let dir = rig("table");
    let (status, out, err) = run(&dir, &["find", "hang.txt", "rules.txt", "--pattern", "lapsed"]);
    let expected = "lapsed: A motor that was not inspected since 1 May 2025.
2 places

truss       pin  motor
front       p1   m1
back truss  p2   m3

2 places, all of them
";
    assert_eq!((status, out.as_str(), err.as_str()), (0, expected, ""));
}

#[test]
fn one_place_each_once() {
    let dir = rig("once");
    let (status, out, err) = run(&dir, &["find", "hang.txt", "rules.txt", "-p", "two-motors"]);
    assert_eq!((status, out.matches("p1").count()), (0, 2));
    let hint = "each place stands 2 times, since the pattern looks the same with its vertices exchanged; --once lists it once\n";
    assert_eq!(err, hint);
    let (status, out, err) = run(&dir, &["find", "hang.txt", "rules.txt", "-p", "two-motors", "--once"]);
    let expected = "two-motors: Two motors on one pin.\n1 place\n\npin  a   b\np1   m1  m2\n\n1 place, all of them\n";
    assert_eq!((status, out.as_str(), err.as_str()), (0, expected, "mirror images once, by a < b\n"));
}

#[test]
fn an_empty_list_says_why() {
    let dir = rig("empty");
    let (status, out, _) = run(&dir, &["find", "hang.txt", "rules.txt", "-p", "lamps"]);
    let why = "no two items that fit have truss -carries-> motor: the hang has 3 of kind carries, all of others";
    assert_eq!((status, out), (1, format!("lamps\n0 places\n\n{why}\n\n0 places, all of them\n")));
    for (pattern, why) in [
        ("a: motor inspected 2027-01-01..\nb: pin\nb -carries-> a\n", "no item fits a: of 3 of kind motor none was inspected 2027-01-01.."),
        ("a: any inspected 2027-01-01..\nb: pin\nb -carries-> a\n", "no item fits a: of 7 items none was inspected 2027-01-01.."),
        ("a: motor inspected ..2025-04-20\nb: pin\nc: motor\nb -carries-> a\nb -carries-> c\na < c\nc < a\n", "the pairs contradict each other, and no items satisfy them all"),
        ("a: truss\nb: pin\nc: motor\nd: motor\ne: motor\na -bolted-> b\nb -carries-> c\nb -carries-> d\nb -carries-> e\n", "each connection occurs by itself, but where the others are found no item is left for e"),
    ] {
        fs::write(dir.join("one.txt"), format!("[query]\n{pattern}")).unwrap();
        let (status, out, _) = run(&dir, &["find", "hang.txt", "one.txt"]);
        assert_eq!((status, out), (1, format!("0 places\n\n{why}\n\n0 places, all of them\n")));
    }
}

#[test]
fn json_of_one_and_of_several() {
    let dir = rig("json");
    let (status, out, _) = run(&dir, &["find", "hang.txt", "rules.txt", "-p", "lapsed", "--json", "--plan", "drawn"]);
    let value: Value = serde_json::from_str(&out).unwrap();
    assert_eq!(status, 0);
    assert_eq!(value["vertices"], serde_json::json!(["truss", "pin", "motor"]));
    assert_eq!(value["rows"], serde_json::json!([["front", "p1", "m1"], ["back truss", "p2", "m3"]]));
    assert_eq!(value["plan"], serde_json::json!(["scan truss -bolted-> pin", "extend motor"]));
    assert_eq!(
        (&value["places"], &value["cost"], &value["build"], &value["probe"]),
        (&2.into(), &3.into(), &0.into(), &0.into())
    );
    assert_eq!(value["records"][0]["rows"], 2);
    assert_eq!(value["records"][1]["cost"], 3);
    let (status, out, _) = run(&dir, &["find", "hang.txt", "rules.txt", "--json"]);
    let value: Value = serde_json::from_str(&out).unwrap();
    let titles: Vec<&str> =
        value["patterns"].as_array().unwrap().iter().map(|p| p["pattern"].as_str().unwrap()).collect();
    assert_eq!((status, titles), (0, vec!["two-motors", "lapsed", "lamps"]));
}

#[test]
fn csv_and_counts() {
    let dir = rig("csv");
    let (status, out, err) = run(&dir, &["find", "hang.txt", "rules.txt", "-p", "lapsed", "--csv"]);
    assert_eq!((status, out.as_str()), (0, "truss,pin,motor\r\nfront,p1,m1\r\nback truss,p2,m3\r\n"));
    assert_eq!(err, "2 places, all of them\n");
    let (status, _, err) = run(&dir, &["find", "hang.txt", "rules.txt", "--csv"]);
    assert_eq!(
        (status, err.as_str()),
        (2, "error: --csv lists one pattern; choose it with --pattern: two-motors, lapsed, lamps\n")
    );
    let (status, out, _) = run(&dir, &["find", "hang.txt", "rules.txt", "-p", "lapsed", "--count"]);
    assert_eq!((status, out.as_str()), (0, "2\n"));
    let (status, out, _) = run(&dir, &["find", "hang.txt", "rules.txt", "--count"]);
    assert_eq!((status, out.as_str()), (0, "two-motors: 2\nlapsed: 2\nlamps: 0\n"));
    let (status, out, _) = run(&dir, &["find", "hang.txt", "rules.txt", "-p", "lamps", "--count"]);
    assert_eq!((status, out.as_str()), (1, "0\n"));
}

#[test]
fn a_file_is_whole_or_not_there() {
    let dir = rig("output");
    let (status, out, _) = run(&dir, &["find", "hang.txt", "rules.txt", "-p", "lapsed", "--csv", "-o", "places.csv"]);
    assert_eq!((status, out.as_str()), (0, ""));
    let places = fs::read_to_string(dir.join("places.csv")).unwrap();
    assert_eq!(places, "truss,pin,motor\r\nfront,p1,m1\r\nback truss,p2,m3\r\n");
    // An error leaves the file that is there.
    fs::write(dir.join("bad.txt"), "[query]\nx: motr\n").unwrap();
    let (status, _, _) = run(&dir, &["find", "hang.txt", "bad.txt", "--csv", "-o", "places.csv"]);
    assert_eq!((status, fs::read_to_string(dir.join("places.csv")).unwrap()), (2, places));
    let (status, _, err) = run(&dir, &["find", "hang.txt", "rules.txt", "-p", "lapsed", "-o", "none/places.txt"]);
    assert!(status == 2 && err.starts_with("error: none/places.txt: "), "{err}");
    let left: Vec<_> = fs::read_dir(&dir).unwrap().map(|e| e.unwrap().file_name()).collect();
    assert_eq!(left.len(), 4, "{left:?}");
}

/// A list long enough to fill a pipe.
fn long(dir: &std::path::Path) {
    let mut text = String::from("[graph]\nvertices 400\n");
    for i in 0..200 {
        for j in 200..300 {
            text += &format!("{i} -1-> {j}\n");
        }
    }
    fs::write(dir.join("long.txt"), text + "[query]\nvertices 2\n0 -1-> 1\n").unwrap();
}

#[test]
fn a_reader_that_closes() {
    let dir = folder("closes");
    long(&dir);
    for form in [&["find", "long.txt"][..], &["find", "long.txt", "--json"], &["find", "long.txt", "--csv"]] {
        let mut child = program(&dir).args(form).stdout(Stdio::piped()).stderr(Stdio::piped()).spawn().unwrap();
        let mut some = [0; 100];
        let mut out = child.stdout.take().unwrap();
        out.read_exact(&mut some).unwrap();
        drop(out);
        let output = child.wait_with_output().unwrap();
        let err = String::from_utf8(output.stderr).unwrap();
        assert_eq!(output.status.code(), Some(2), "{err}");
        assert!(err.contains("not complete"), "{err}");
        assert!(!err.contains("all of them"), "{err}");
    }
}

#[test]
fn a_disk_that_is_full() {
    let dir = folder("full");
    long(&dir);
    let full = || fs::OpenOptions::new().write(true).open("/dev/full").unwrap();
    for arguments in [
        &["find", "long.txt"][..],
        &["find", "long.txt", "--count"],
        &["find", "long.txt", "--csv"],
        &["check", "long.txt"],
    ] {
        let mut command = program(&dir);
        fs::write(
            dir.join("long.txt"),
            fs::read_to_string(dir.join("long.txt"))
                .unwrap()
                .replace("[query]\n", "[query]\nexpect 1\n")
                .replace("expect 1\nexpect 1\n", "expect 1\n"),
        )
        .unwrap();
        let output = command.args(arguments).stdout(full()).stderr(Stdio::piped()).output().unwrap();
        let err = String::from_utf8(output.stderr).unwrap();
        assert_eq!(output.status.code(), Some(2), "{arguments:?}: {err}");
        assert!(err.contains("not complete"), "{err}");
    }
}

#[test]
fn errors_with_their_line_and_a_mark() {
    let dir = rig("errors");
    fs::write(dir.join("bad.txt"), "[query]\nx: motr\ny: pin\ny -carrys-> x\n").unwrap();
    let (status, out, err) = run(&dir, &["find", "hang.txt", "bad.txt"]);
    assert_eq!((status, out.as_str()), (2, ""));
    for part in ["bad.txt:2:4", "x: motr", "^^^^", "did you mean 'motor'?", "bad.txt:4:4", "did you mean 'carries'?"] {
        assert!(err.contains(part), "{part}: {err}");
    }
    // At most 20, and how many more.
    let many: String = (0..50).map(|i| format!("a{i} -carries-> nothing\n")).collect();
    fs::write(dir.join("many.txt"), format!("[graph]\nx: pin\n{many}")).unwrap();
    let (status, _, err) = run(&dir, &["find", "many.txt"]);
    assert_eq!((status, err.matches("error: no item").count()), (2, 20));
    assert!(err.ends_with("and 80 more errors\n"), "{err}");
}

#[test]
fn what_is_missing() {
    let dir = rig("missing");
    let (status, _, err) = run(&dir, &["find", "none.txt"]);
    assert_eq!((status, err.as_str()), (2, "error: none.txt: there is no such file\n"));
    let (status, _, err) = run(&dir, &["find", "hang.txt"]);
    assert_eq!((status, err.as_str()), (2, "error: there is no pattern: no [query]\n"));
    let (status, _, err) = run(&dir, &["find", "hang.txt", "rules.txt", "-p", "lapse"]);
    assert_eq!((status, err.as_str()), (2, "error: there is no pattern 'lapse'; did you mean 'lapsed'?\n"));
    let (status, _, err) = run(&dir, &["find", "hang.txt", "rules.txt", "-p", "lapsed", "--plan", "given"]);
    assert_eq!((status, err.as_str()), (2, "error: the pattern 'lapsed' has no [plan]\n"));
    fs::write(dir.join("alone.txt"), "[query]\nvertices 2\n0 -1-> 1\n").unwrap();
    let (status, _, err) = run(&dir, &["find", "alone.txt"]);
    assert_eq!((status, err.as_str()), (2, "error: there is no hang: no [graph] and no table of items\n"));
    let (status, _, _) = run(&dir, &["find"]);
    assert_eq!(status, 2);
    let (status, _, _) = run(&dir, &["seek", "hang.txt"]);
    assert_eq!(status, 2);
}

#[test]
fn plans_of_the_text_and_memory() {
    let dir = folder("plans");
    let text = "[graph]\nvertices 3\n0 -1-> 1\n0 -1-> 2\n[query]\nvertices 3\n0 -1-> 1\n0 -1-> 2\n[plan]\nscan 0 -1-> 2\nextend 1\n";
    fs::write(dir.join("hang.txt"), text).unwrap();
    let rows = |plan: &[&str]| {
        let (_, out, _) = run(&dir, &[&["find", "hang.txt", "--json"], plan].concat());
        let value: Value = serde_json::from_str(&out).unwrap();
        (value["rows"].to_string(), value["plan"].to_string(), value["planFrom"].to_string())
    };
    let given =
        (r#"[["0","2","1"],["0","1","2"]]"#.into(), r#"["scan 0 -1-> 2","extend 1"]"#.into(), r#""given""#.into());
    assert_eq!(rows(&[]), given);
    assert_eq!(rows(&["--plan", "given"]), given);
    let drawn =
        (r#"[["0","1","2"],["0","2","1"]]"#.into(), r#"["scan 0 -1-> 1","extend 2"]"#.into(), r#""drawn""#.into());
    assert_eq!(rows(&["--plan", "drawn"]), drawn);
    long(&dir);
    let (status, out, err) = run(&dir, &["find", "long.txt", "--memory", "100K"]);
    assert_eq!((status, out.as_str()), (2, ""));
    assert!(err.contains("--memory"), "{err}");
    let (status, out, _) = run(&dir, &["find", "long.txt", "--memory", "10M", "--count"]);
    assert_eq!((status, out.as_str()), (0, "20000\n"));
    // A plan that breaks a rule has its line; another plan runs.
    fs::write(dir.join("bad.txt"), text.replace("extend 1", "extend 2")).unwrap();
    let (status, _, err) = run(&dir, &["find", "bad.txt"]);
    assert!(status == 2 && err.contains("vertex 2 is covered already") && err.contains("bad.txt:11:1"), "{err}");
    let (status, _, _) = run(&dir, &["find", "bad.txt", "--plan", "drawn"]);
    assert_eq!(status, 0);
    let (status, _, err) = run(&dir, &["find", "hang.txt", "--memory", "lots"]);
    assert!(status == 2 && err.contains("500M or 2G"), "{err}");
}

#[test]
fn standard_input_and_folders() {
    let dir = rig("input");
    use std::io::Write;
    let mut child = program(&dir)
        .args(["find", "-", "--count", "-p", "lapsed"])
        .stdin(Stdio::piped())
        .stdout(Stdio::piped())
        .spawn()
        .unwrap();
    child.stdin.take().unwrap().write_all(format!("{HANG}{RULES}").as_bytes()).unwrap();
    assert_eq!(child.wait_with_output().unwrap().stdout, b"2\n");
    fs::create_dir(dir.join("tables")).unwrap();
    assert_eq!(run(&dir, &["export", "hang.txt", "-o", "tables"]), (0, String::new(), String::new()));
    let (status, out, err) = run(&dir, &["find", "tables", "rules.txt", "-p", "lapsed"]);
    assert!(status == 0 && out.contains("back truss  p2   m3"), "{out}");
    assert_eq!(err, "7 items: motor 3, truss 2, pin 2\n5 connections: carries 3, bolted 2\n");
    fs::create_dir(dir.join("packed")).unwrap();
    fs::write(dir.join("both.txt"), format!("{HANG}{RULES}")).unwrap();
    assert_eq!(run(&dir, &["pack", "both.txt", "packed", "-p", "lapsed"]), (0, String::new(), String::new()));
    let (status, out, _) = run(&dir, &["find", "packed"]);
    assert!(status == 0 && out.contains("back truss  p2   m3"), "{out}");
}

/// The pages of request 13: numbers, 59 rows a page, the page and the page count first.
#[test]
fn sheets() {
    let dir = folder("sheet");
    long(&dir);
    let (status, out, _) = run(&dir, &["find", "long.txt", "--sheet"]);
    assert_eq!(status, 0);
    let pages = 20_000_usize.div_ceil(59);
    assert_eq!(out.len(), 4_860 * pages);
    let numbers = |line: &str| -> Vec<usize> { line.split_whitespace().map(|n| n.parse().unwrap()).collect() };
    let mut rows = Vec::new();
    for (i, page) in out.as_bytes().chunks(4_860).enumerate() {
        let lines: Vec<&str> = std::str::from_utf8(page).unwrap().lines().collect();
        assert_eq!(numbers(lines[0]), [i + 1, pages]);
        rows.extend(lines[1..].iter().map(|line| numbers(line)).filter(|row| !row.is_empty()));
    }
    let expected: Vec<Vec<usize>> = (0..200).flat_map(|i| (200..300).map(move |j| vec![i, j])).collect();
    assert_eq!(rows, expected);
}

/// After the pages, which item each number is: lines as wide as theirs, a long name over several.
#[test]
fn sheet_with_its_key() {
    let dir = folder("key");
    let name = "the second truss from the back, on the side of the river, which is hung a hand lower than the others";
    let text = format!("[graph]\nvertex pin\nvertex \"{name}\"\npin -1-> \"{name}\"\n[query]\nvertex a\nvertex b\na -1-> b\n");
    std::fs::write(dir.join("key.txt"), text).unwrap();
    let (status, out, _) = run(&dir, &["find", "key.txt", "--sheet", "--key"]);
    assert_eq!(status, 0);
    let lines: Vec<&str> = out[4_860..].lines().collect();
    assert!(lines.iter().all(|line| line.chars().count() == 80), "{out}");
    assert!(lines[0].starts_with("Key to the item numbers above: 2 items"), "{out}");
    assert_eq!(lines[1].trim_end(), "       0  pin");
    assert!(lines[2].starts_with("       1  the second"), "{out}");
    assert_eq!(format!("{}{}", &lines[2][10..], lines[3][10..].trim_end()), name);
    assert_eq!(lines.len(), 4);
    let (status, ..) = run(&dir, &["find", "key.txt", "--key"]);
    assert_eq!(status, 2);
}

/// A word that is near to no kind has them all beside it, where they are few.
#[test]
fn kinds_are_listed_where_none_is_near() {
    let dir = folder("no-kind-is-near");
    let text = "[kinds]\nitem motor\nitem pin\nconnection carries\n[graph]\np: pin\nm: motor\np -carries-> m\n[query]\na: zzzzzz\nb: motr\na -carries-> b\n";
    fs::write(dir.join("hang.txt"), text).unwrap();
    let (status, out, err) = run(&dir, &["find", "hang.txt"]);
    assert_eq!((status, out.as_str()), (2, ""));
    assert!(err.contains("no kind of item 'zzzzzz' is declared in [kinds]") && err.contains("write one of 'motor', 'pin'"), "{err}");
    assert!(err.contains("did you mean 'motor'?"), "{err}");
    fs::write(dir.join("hang.txt"), "[graph]\np: pin\nm: pin\n[query]\na: pin\nb: pin\na -carries-> b\n").unwrap();
    let (_, _, err) = run(&dir, &["find", "hang.txt"]);
    assert!(err.contains("'carries' is in the hang") && err.contains("there is only 'any'"), "{err}");
}
