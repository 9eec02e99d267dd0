//! The lists of the examples beside those of SQLite and PostgreSQL, which share nothing with this engine.

mod common;

use std::fs;
use std::io::{BufRead, BufReader, Write};
use std::path::{Path, PathBuf};
use std::process::{Child, ChildStdin, Command, Stdio};

use common::{examples, folder, patterns, run};
use serde_json::Value;

/// What stands between two columns; no name has it.
const BETWEEN: &str = "\u{1f}";

/// Names that SQL would read otherwise if they stood as they are.
const QUOTED: &str = r#"[graph]
vertex "O'Brien's ""pin"""
vertex "back\\slash'; DROP TABLE item; --"
vertex Träger-Süd
vertex "$1 %s :x"
"O'Brien's ""pin""" -"a 'kind'"-> "back\\slash'; DROP TABLE item; --"
"back\\slash'; DROP TABLE item; --" -"a 'kind'"-> Träger-Süd
Träger-Süd -other-> "$1 %s :x"
[query one]
vertex "a ""b"""
vertex "select"
"a ""b""" -"a 'kind'"-> "select"
[query two] # 'any' of them
vertex x
vertex y
x -any-> y
"#;

/// Every pattern of every example, and of a hang with odd names: the folder, its SQL, and its rows, sorted.
fn lists(test: &str) -> Vec<(PathBuf, String, Vec<String>)> {
    let odd = folder(test);
    fs::write(odd.join("hang.txt"), QUOTED).unwrap();
    let mut all = examples();
    assert!(all.len() >= 8);
    all.push(odd);
    let mut lists = Vec::new();
    for dir in all {
        let (_, out, _) = run(&dir, &["find", ".", "--json", "--plan", "drawn"]);
        for found in patterns(&out) {
            let row = |row: &Value| -> String {
                let names: Vec<&str> = row.as_array().unwrap().iter().map(|n| n.as_str().unwrap()).collect();
                names.join(BETWEEN)
            };
            let mut rows: Vec<String> = found["rows"].as_array().unwrap().iter().map(row).collect();
            rows.sort();
            let mut arguments = vec!["sql", "."];
            if let Some(name) = found["pattern"].as_str() {
                arguments.extend(["-p", name]);
            }
            let (status, statements, err) = run(&dir, &arguments);
            assert_eq!(status, 0, "{err}");
            lists.push((dir.clone(), statements, rows));
        }
    }
    assert!(lists.len() >= 10);
    lists
}

/// What a program prints for statements on its standard input, a sorted line each.
fn printed(command: &mut Command, statements: &str) -> Vec<String> {
    let mut child = command.stdin(Stdio::piped()).stdout(Stdio::piped()).spawn().unwrap();
    child.stdin.take().unwrap().write_all(statements.as_bytes()).unwrap();
    let output = child.wait_with_output().unwrap();
    assert!(output.status.success(), "{statements}");
    let mut lines: Vec<String> = String::from_utf8(output.stdout).unwrap().lines().map(str::to_string).collect();
    lines.sort();
    lines
}

#[test]
fn sqlite() {
    let is_there = Command::new("sqlite3").arg("--version").output().is_ok();
    assert!(is_there, "sqlite3 is installed: apt-get install sqlite3");
    for (dir, statements, rows) in lists("sqlite") {
        let listed = printed(Command::new("sqlite3").args(["-batch", "-separator", BETWEEN]), &statements);
        assert_eq!(listed, rows, "{dir:?}");
    }
}

/// A server on a socket of its own, which ends when its input does.
struct Server {
    shell: Child,
    input: Option<ChildStdin>,
    host: String,
}

impl Server {
    /// None where its programs are not there, or it does not start, which is said.
    fn start() -> Option<Server> {
        let script = "set -eu; . bench/engine/postgres; echo \"${PGHOST:-}\"; read -r _ || true";
        let mut shell = Command::new("bash")
            .current_dir(Path::new(env!("CARGO_MANIFEST_DIR")).join(".."))
            .args(["-c", script])
            .stdin(Stdio::piped())
            .stdout(Stdio::piped())
            .spawn()
            .ok()?;
        let input = shell.stdin.take();
        let mut host = String::new();
        BufReader::new(shell.stdout.take()?).read_line(&mut host).ok()?;
        let server = Server { shell, input, host: host.trim().to_string() };
        (!server.host.is_empty()).then_some(server)
    }

    fn client(&self) -> Command {
        let mut command = Command::new("psql");
        command.env("PGHOST", &self.host).env("PGUSER", "rizhavaan").env("PGDATABASE", "postgres");
        command.args(["-X", "-q", "-A", "-t", "-F", BETWEEN, "-v", "ON_ERROR_STOP=1"]);
        command
    }
}

impl Drop for Server {
    fn drop(&mut self) {
        drop(self.input.take());
        let _ = self.shell.wait();
    }
}

#[test]
fn postgresql() {
    let Some(server) = Server::start() else {
        println!("skipped: there is no PostgreSQL server to start (apt-get install postgresql)");
        return;
    };
    for (dir, statements, rows) in lists("postgresql") {
        assert_eq!(printed(&mut server.client(), &statements), rows, "{dir:?}");
    }
}
