//! `rizhavaan check` and `diff`, and `explain`, `picture` and `completion`.

mod common;

use std::fs;

use common::{folder, program, run};
use serde_json::Value;

const HANG: &str = "[graph]
t: truss
p1: pin
p2: pin
m1: motor
m2: motor
t -bolted-> p1
t -bolted-> p2
p1 -carries-> m1
p2 -carries-> m2
";

const RULES: &str = "[query pairs] # Two motors on one pin.
expect 0
p: pin
a: motor
b: motor
p -carries-> a
p -carries-> b
[query motors]
expect at least 2
p: pin
m: motor
p -carries-> m
[query trusses]
t: truss
p: pin
t -bolted-> p
";

const CHANGES: &str = "[changes]\n- p2 -carries-> m2\n+ p1 -carries-> m2\n";

fn rig(test: &str) -> std::path::PathBuf {
    let dir = folder(test);
    fs::write(dir.join("hang.txt"), HANG).unwrap();
    fs::write(dir.join("rules.txt"), RULES).unwrap();
    fs::write(dir.join("changes.txt"), format!("{HANG}{CHANGES}")).unwrap();
    fs::write(dir.join("after.txt"), HANG.replace("p2 -carries-> m2", "p1 -carries-> m2")).unwrap();
    dir
}

#[test]
fn a_book_of_rules() {
    let dir = rig("check");
    let (status, out, err) = run(&dir, &["check", "hang.txt", "rules.txt"]);
    let expected = "ok    pairs   0 places, expected 0  Two motors on one pin.
ok    motors  2 places, expected at least 2
2 of 2 as expected; 1 without 'expect' not looked for
";
    assert_eq!((status, out.as_str()), (0, expected), "{err}");
    let (status, out, _) = run(&dir, &["check", "after.txt", "rules.txt"]);
    assert_eq!(status, 1);
    assert!(out.starts_with("FAIL  pairs   2 places, expected 0"), "{out}");
    assert!(out.ends_with("1 of 2 as expected; 1 without 'expect' not looked for\n"), "{out}");
    let (status, out, _) = run(&dir, &["check", "after.txt", "rules.txt", "--json"]);
    let value: Value = serde_json::from_str(&out).unwrap();
    assert_eq!((status, &value["ok"], &value["patterns"][0]["places"]), (1, &false.into(), &2.into()));
    let (status, out, _) = run(&dir, &["check", "after.txt", "rules.txt", "--once"]);
    assert!(status == 1 && out.starts_with("FAIL  pairs   1 place, expected 0"), "{out}");
    fs::write(dir.join("none.txt"), "[query]\np: pin\nm: motor\np -carries-> m\n").unwrap();
    let (status, _, err) = run(&dir, &["check", "hang.txt", "none.txt"]);
    assert!(status == 2 && err.contains("no pattern has an 'expect'"), "{err}");
}

#[test]
fn changes_and_two_hangs() {
    let dir = rig("diff");
    let expected = "pairs: Two motors on one pin.
0 gone, 2 new, 0 kept

   p   a   b
+  p1  m1  m2
+  p1  m2  m1

0 gone, 2 new, 0 kept, all of them

motors
1 gone, 1 new, 1 kept

   p   m
-  p2  m2
+  p1  m2
=  p1  m1

1 gone, 1 new, 1 kept, all of them

trusses
0 gone, 0 new, 2 kept

   t  p
=  t  p1
=  t  p2

0 gone, 0 new, 2 kept, all of them
";
    let (status, out, err) = run(&dir, &["diff", "changes.txt", "--patterns", "rules.txt"]);
    assert_eq!((status, out.as_str()), (1, expected), "{err}");
    let (status, out, err) = run(&dir, &["diff", "hang.txt", "after.txt", "--patterns", "rules.txt"]);
    assert_eq!((status, out.as_str()), (1, expected), "{err}");
    let (status, out, _) =
        run(&dir, &["diff", "hang.txt", "after.txt", "--patterns", "rules.txt", "-p", "trusses", "--json"]);
    let value: Value = serde_json::from_str(&out).unwrap();
    assert_eq!((status, &value["patterns"][0]["kept"]), (0, &serde_json::json!([["t", "p1"], ["t", "p2"]])));
    let (status, _, err) = run(&dir, &["diff", "hang.txt", "--patterns", "rules.txt"]);
    assert_eq!((status, err.as_str()), (2, "error: there are no [changes]\n"));
}

#[test]
fn changes_that_do_not_apply() {
    let dir = rig("unfit");
    let text = format!("{HANG}{}", CHANGES.replace("- p2 -carries-> m2", "- p2 -carries-> m1"));
    fs::write(dir.join("unfit.txt"), text).unwrap();
    let (status, out, err) = run(&dir, &["diff", "unfit.txt", "--patterns", "rules.txt"]);
    assert_eq!((status, out.as_str()), (2, ""));
    assert!(err.contains("the graph has no edge p2 -carries-> m1") && err.contains("unfit.txt:12:1"), "{err}");
}

#[test]
fn the_plan_in_words() {
    let dir = rig("explain");
    let (status, out, _) = run(&dir, &["explain", "hang.txt", "rules.txt", "-p", "trusses"]);
    let expected = "trusses: 2 places by the plan that was picked, cost 0
It reads connections of kind bolted; no other connection can change its list.

1. begin with every t -bolted-> p

scan t -bolted-> p

operator            estimated  rows                           cost
scan t -bolted-> p          2     2 ########################     0

The cost counts the entries of neighbour lists that were looked up; the longest bar is the operator to change.

                     at most  this run
words of list              4         4
words of scratch           2         2
cost                       0         0
rows of an operator        2         2

With so many words set aside no run of this plan is refused for want of them.

The drawn plan is the same.
";
    assert_eq!((status, out.as_str()), (0, expected));
}

/// Which kinds of connection a pattern reads: one, several, or any.
#[test]
fn the_kinds_that_are_read() {
    let dir = folder("kinds");
    let hang = "[graph]\na: truss\nb: motor\na -north-> b\na -south-> b\nb -1-> a\n[query]\nx: truss\ny: motor\n";
    let cases = [
        ("x -north-> y", "of kind north; no other connection can change its list."),
        ("x -south-> y\nx -north-> y", "of the kinds north and south; no other connection can change its list."),
        (
            "x -south-> y\ny -1-> x\nx -north-> y",
            "of the kinds 1, north and south; no other connection can change its list.",
        ),
        ("x -north-> y\nx -any-> y", "of every kind."),
    ];
    for (edges, sentence) in cases {
        fs::write(dir.join("hang.txt"), format!("{hang}{edges}\n")).unwrap();
        let (status, out, err) = run(&dir, &["explain", "hang.txt"]);
        assert_eq!(status, 0, "{err}");
        assert_eq!(out.lines().nth(1), Some(format!("It reads connections {sentence}").as_str()), "{edges}");
    }
}

#[test]
fn pictures() {
    let dir = rig("picture");
    let (status, _, err) = run(&dir, &["picture", "after.txt", "rules.txt", "-p", "pairs", "-o", "rig.dot"]);
    assert_eq!(status, 0, "{err}");
    let dot = fs::read_to_string(dir.join("rig.dot")).unwrap();
    assert_eq!(dot.matches("penwidth=3").count(), 3, "{dot}");
    assert_eq!(dot.matches("penwidth=2").count(), 2, "{dot}");
    assert_eq!(dot.matches(" -> ").count(), 4, "{dot}");
    // Without Graphviz it says how to have it.
    let output =
        program(&dir).args(["picture", "hang.txt", "rules.txt", "-o", "rig.svg"]).env("PATH", "").output().unwrap();
    let err = String::from_utf8(output.stderr).unwrap();
    assert!(output.status.code() == Some(2) && err.contains("apt-get install graphviz"), "{err}");
    assert!(!dir.join("rig.svg").exists());
    // A large hang is drawn in part.
    let mut text = String::from("[graph]\nvertices 1000\n");
    for i in 0..999 {
        text += &format!("{i} -{}-> {}\n", 1 + u32::from(i == 500), i + 1);
    }
    fs::write(dir.join("large.txt"), text + "[query]\nvertices 2\n0 -2-> 1\n").unwrap();
    let (status, out, _) = run(&dir, &["picture", "large.txt", "-o", "large.dot"]);
    assert_eq!((status, out.as_str()), (0, ""));
    let dot = fs::read_to_string(dir.join("large.dot")).unwrap();
    assert_eq!(dot.matches("fillcolor").count(), 4, "{dot}");
    assert!(dot.contains("4 of 1000 items"), "{dot}");
}

#[test]
fn help_and_completion() {
    let dir = folder("help");
    for command in
        ["find", "check", "diff", "explain", "picture", "sql", "import", "export", "pack", "unpack", "completion"]
    {
        let (status, out, _) = run(&dir, &[command, "--help"]);
        assert!(status == 0 && out.contains("Example:"), "{command}: {out}");
    }
    let (status, out, _) = run(&dir, &["completion", "bash"]);
    assert!(status == 0 && out.contains("rizhavaan"), "{out}");
}
