//! What the tests share: folders of their own, and the program run in them.
#![allow(dead_code)]

use std::fs;
use std::path::{Path, PathBuf};
use std::process::{Command, Output};

use serde_json::Value;

/// An empty folder of its own for a test.
pub fn folder(test: &str) -> PathBuf {
    let path = Path::new(env!("CARGO_TARGET_TMPDIR")).join(test);
    let _ = fs::remove_dir_all(&path);
    fs::create_dir_all(&path).unwrap();
    path
}

/// The program, to be run in a folder.
pub fn program(dir: &Path) -> Command {
    let mut command = Command::new(env!("CARGO_BIN_EXE_rizhavaan"));
    command.current_dir(dir);
    command
}

/// Exit status, standard output and standard error of a run.
pub fn run(dir: &Path, arguments: &[&str]) -> (i32, String, String) {
    told(program(dir).args(arguments).output().unwrap())
}

pub fn told(output: Output) -> (i32, String, String) {
    let text = |bytes| String::from_utf8(bytes).unwrap();
    (output.status.code().unwrap(), text(output.stdout), text(output.stderr))
}

/// The patterns that `--json` prints: one object, or several in one.
pub fn patterns(out: &str) -> Vec<Value> {
    let value: Value = serde_json::from_str(out).unwrap_or_else(|e| panic!("{e}: {out}"));
    let several = value["patterns"].as_array().cloned();
    several.unwrap_or_else(|| vec![value])
}

/// The patterns of a run's JSON.
pub fn found(dir: &Path, arguments: &[&str]) -> Vec<Value> {
    patterns(&run(dir, &[arguments, &["--json"]].concat()).1)
}

/// Every pattern of the examples by a plan of a kind, beside itself by a drawn one: the same rows. Told of each example that is refused.
pub fn beside_drawn(kind: &str, mut refused: impl FnMut(i32, &str)) -> Vec<(Value, Value)> {
    let mut both = Vec::new();
    for example in examples() {
        let (status, out, err) = run(&example, &["find", ".", "--plan", kind, "--json"]);
        if status > 1 {
            refused(status, &err);
            continue;
        }
        let (asked, drawn) = (patterns(&out), found(&example, &["find", ".", "--plan", "drawn"]));
        assert_eq!(asked.len(), drawn.len(), "{example:?}");
        for (asked, drawn) in asked.into_iter().zip(drawn) {
            assert_eq!(rows(&asked), rows(&drawn), "{example:?}");
            assert_eq!((&asked["planFrom"], &drawn["planFrom"]), (&kind.into(), &"drawn".into()));
            both.push((asked, drawn));
        }
    }
    both
}

/// The rows of a pattern in an order of their own: plans list the same ones in different orders.
pub fn rows(found: &Value) -> Vec<String> {
    let mut rows: Vec<String> = found["rows"].as_array().unwrap().iter().map(Value::to_string).collect();
    rows.sort();
    rows
}

/// The folders of the shipped examples.
pub fn examples() -> Vec<PathBuf> {
    let folder = Path::new(env!("CARGO_MANIFEST_DIR")).join("../examples");
    let entries = fs::read_dir(folder).unwrap().map(|e| e.unwrap().path());
    let mut folders: Vec<PathBuf> = entries.filter(|path| path.is_dir()).collect();
    folders.sort();
    folders
}

/// A stream of numbers that look random and are the same in every run.
pub struct Numbers(pub u64);

impl Numbers {
    pub fn below(&mut self, bound: usize) -> usize {
        self.0 = self.0.wrapping_mul(6_364_136_223_846_793_005).wrapping_add(1_442_695_040_888_963_407);
        (self.0 >> 33) as usize % bound
    }
}
