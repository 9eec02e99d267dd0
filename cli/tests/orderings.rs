//! All orderings: their plot, and the cheapest one's list.

mod common;

use std::fs;

use common::{beside_drawn, examples, folder, run};

/// The triangle's hang: connections of one kind 0→1, 0→2, 1→2, 1→3, 2→3.
const HANG: &str = "[graph]\nvertices 4\n0 -1-> 1\n0 -1-> 2\n1 -1-> 2\n1 -1-> 3\n2 -1-> 3\n\n[query]\nvertices 3\n0 -1-> 1\n0 -1-> 2\n1 -1-> 2\n";

/// The cheapest plan lists what the drawn one lists, at a cost no higher.
#[test]
fn every_small_example() {
    let both = beside_drawn("cheapest", |status, err| assert!(status == 2 && err.contains("with 31"), "{err}"));
    assert!(both.iter().all(|(cheapest, drawn)| cheapest["cost"].as_u64() <= drawn["cost"].as_u64()), "{both:?}");
    assert!(both.len() >= 4, "{} patterns", both.len());
}

#[test]
fn plot() {
    let dir = folder("orderings");
    fs::write(dir.join("hang.txt"), HANG).unwrap();
    let (status, out, err) = run(&dir, &["explain", "hang.txt", "--orderings"]);
    assert_eq!(status, 0, "{err}");
    let lines: Vec<&str> = out.lines().skip_while(|line| !line.starts_with("All 3 plans")).collect();
    let costs: Vec<&str> = lines[2..5].iter().map(|line| line.split_whitespace().next().unwrap()).collect();
    assert_eq!(costs, ["13", "18", "13"], "{out}");
    assert!(lines[2].ends_with("(drawn, picked, cheapest)"), "{out}");
    assert_eq!(lines.iter().filter(|line| line.ends_with(')')).count(), 1, "{out}");
    assert!(lines[6].starts_with("The cheapest, at 13: scan "), "{out}");
}

/// A plan with a join is none of them, and is said to be none.
#[test]
fn a_given_plan_with_a_join() {
    let example = examples().into_iter().find(|path| path.ends_with("bowtie-bushy-join")).unwrap();
    let (status, out, err) = run(&example, &["explain", ".", "--orderings"]);
    assert_eq!(status, 0, "{err}");
    assert!(out.contains("\nAll 28 plans of one scan and extends") && !out.contains("(given"), "{out}");
    assert!(out.contains("\nThe given plan has a join, and is none of them.\n"), "{out}");
    for mark in ["(drawn)", "(picked)", "(cheapest)"] {
        assert_eq!(out.matches(mark).count(), 1, "{mark}: {out}");
    }
}

/// Of a pattern of more than 5 vertices there is a sentence, and the rest is told.
#[test]
fn none_of_six_items() {
    let dir = folder("six");
    let chain: String = (0..5).map(|v| format!("{v} -1-> {}\n", v + 1)).collect();
    fs::write(dir.join("hang.txt"), format!("[graph]\nvertices 6\n{chain}[query]\nvertices 6\n{chain}")).unwrap();
    let (status, out, err) = run(&dir, &["explain", "hang.txt", "--orderings"]);
    assert_eq!(status, 0, "{err}");
    assert!(out.starts_with("query: 1 place by the plan that was picked, cost "), "{out}");
    let sentence = "\nNo orderings: all orderings are compared for patterns of at most 5 items, and this one has 6.\n";
    assert!(out.ends_with(sentence), "{out}");
    let (status, out, err) = run(&dir, &["find", "hang.txt", "--plan", "cheapest"]);
    assert!(status == 2 && out.is_empty() && err.contains("with 31: all orderings are listed for"), "{err}");
}
