//! Picked plans: the lists of drawn ones, and a pick that sees nothing of kinds that a pattern does not name.

mod common;

use std::collections::BTreeSet;
use std::fmt::Write;
use std::fs;

use common::{beside_drawn, folder, found, rows, run, Numbers};

#[test]
fn every_example() {
    let count = beside_drawn("picked", |_, err| panic!("{err}")).len();
    assert!(count >= 8, "{count} patterns");
}

type Edge = (usize, usize, usize);

/// A random pattern of 3 to 5 vertices by labels 1 to 3: a tree, and further edges.
fn pattern(r: &mut Numbers) -> String {
    let n = 3 + r.below(3);
    let mut edges = BTreeSet::new();
    for v in 1..n {
        let other = r.below(v);
        let (from, to) = if r.below(2) == 0 { (v, other) } else { (other, v) };
        edges.insert((from, to, 1 + r.below(3)));
    }
    let (a, b) = (r.below(n), r.below(n));
    if a != b {
        edges.insert((a, b, 1 + r.below(3)));
    }
    let mut text = String::from("[query]\n");
    for _ in 0..n {
        match r.below(2) {
            0 => text += "vertices 1\n",
            _ => writeln!(text, "vertices 1 label {}", 1 + r.below(3)).unwrap(),
        }
    }
    for (a, b, label) in edges {
        writeln!(text, "{a} -{label}-> {b}").unwrap();
    }
    text
}

/// A hang of 60 items, as text.
fn hang(kinds: &[usize], edges: &BTreeSet<Edge>) -> String {
    let mut text = String::from("[graph]\n");
    for kind in kinds {
        writeln!(text, "vertices 1 label {kind}").unwrap();
    }
    for (a, b, label) in edges {
        writeln!(text, "{a} -{label}-> {b}").unwrap();
    }
    text
}

/// Random edges of labels from `first` on; items with low numbers have more of them.
fn edges(r: &mut Numbers, count: usize, first: usize) -> BTreeSet<Edge> {
    let end = |r: &mut Numbers| {
        let most = 1 + r.below(60);
        r.below(most)
    };
    (0..count).map(|_| (end(r), end(r), first + r.below(3) * r.below(2))).collect()
}

#[test]
fn random_hangs_and_foreign_kinds() {
    let dir = folder("picked");
    let mut r = Numbers(38);
    let (mut places, mut others, mut moved) = (0, 0, 0);
    for i in 0..60 {
        let kinds: Vec<usize> = (0..60).map(|_| 1 + r.below(3)).collect();
        let own = edges(&mut r, 200, 1);
        let foreign: BTreeSet<Edge> = own.union(&edges(&mut r, 400, 7)).copied().collect();
        let more: BTreeSet<Edge> = own.union(&edges(&mut r, 400, 1)).copied().collect();
        fs::write(dir.join("pattern.txt"), pattern(&mut r)).unwrap();
        for (name, edges) in [("own.txt", &own), ("foreign.txt", &foreign), ("more.txt", &more)] {
            fs::write(dir.join(name), hang(&kinds, edges)).unwrap();
        }
        let find = |file: &str, plan: &[&str]| found(&dir, &[&["find", file, "pattern.txt"], plan].concat()).remove(0);
        let picked = find("own.txt", &[]);
        assert_eq!(picked["planFrom"], "picked");
        let drawn = find("own.txt", &["--plan", "drawn"]);
        assert_eq!(rows(&picked), rows(&drawn), "{i}");
        let beside = find("foreign.txt", &["--plan", "picked"]);
        assert_eq!((&beside["planBytes"], &beside["rows"]), (&picked["planBytes"], &picked["rows"]), "{i}");
        places += rows(&picked).len();
        others += usize::from(picked["planBytes"] != drawn["planBytes"]);
        moved += usize::from(find("more.txt", &[])["planBytes"] != picked["planBytes"]);
    }
    // The picks are not all the drawn plans, and edges of a pattern's own kinds change some.
    assert!(places > 1_000 && others > 5 && moved > 5, "{places} places, {others} other plans, {moved} moved");
}

/// The estimates stand beside the rows that came, and the drawn plan beside the picked one.
#[test]
fn explained() {
    let dir = folder("explained");
    let mut text = String::from("[graph]\nvertices 60 label 1\nvertices 1 label 2\n");
    for i in 0..59 {
        writeln!(text, "{i} -1-> {}\n{i} -2-> {}", i + 1, (i + 7) % 60).unwrap();
    }
    text += "0 -2-> 60\n0 -1-> 60\n[query]\nvertex a\nvertex b\nvertex c label 2\na -1-> b\nb -2-> c\n";
    fs::write(dir.join("hang.txt"), text.replace("b -2-> c", "a -2-> c")).unwrap();
    let (status, out, _) = run(&dir, &["explain", "hang.txt"]);
    assert_eq!(status, 0);
    assert!(out.starts_with("query: 1 place by the plan that was picked, cost "), "{out}");
    assert!(out.contains("1. begin with every a -2-> c\n2. for each, add every item for b that has a -1-> b\n"), "{out}");
    let line = |name: &str| {
        let line = out.lines().find(|line| line.starts_with(name) && line.contains('#')).unwrap();
        line.split_whitespace().filter_map(|word| word.parse().ok()).collect::<Vec<f64>>()
    };
    // One edge leads to c: the scan has a row, and the extend the neighbours of 0 but 60.
    assert_eq!(line("scan a -2-> c")[..2], [1.0, 1.0]);
    assert_eq!(line("extend b")[1], 1.0);
    assert!(out.contains("\nThe drawn plan"), "{out}");
    let (_, out, _) = run(&dir, &["explain", "hang.txt", "--plan", "drawn"]);
    assert!(out.contains("by a plan that the engine drew") && out.contains("\nThe picked plan"), "{out}");
}
