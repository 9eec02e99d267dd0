//! SQLite and PostgreSQL, by their command line programs: the same counts, from tables with covering indexes.
use crate::graphs::Graph;
use std::io::Write;
use std::process::{Child, Command, Stdio};
use std::time::{Duration, Instant};

pub enum Counted {
    /// The count, and the seconds.
    In(u64, f64),
    /// Stopped after so many seconds.
    Not(f64),
}

#[derive(Clone, Copy, PartialEq)]
pub enum Program {
    Sqlite,
    /// A server that is running: `PGHOST` names its socket.
    Postgres,
}

pub const PROGRAMS: [Program; 2] = [Program::Sqlite, Program::Postgres];

impl Program {
    /// Its version, if it is there.
    pub fn version(self) -> Option<String> {
        let mut command = match self {
            Program::Sqlite => Command::new("sqlite3"),
            Program::Postgres => Command::new("psql"),
        };
        let command = match self {
            Program::Sqlite => command.arg("--version"),
            Program::Postgres if std::env::var_os("PGHOST").is_none() => return None,
            Program::Postgres => command.args(["-X", "-A", "-t", "-c", "SHOW server_version"]),
        };
        let out = command.output().ok()?;
        let text = String::from_utf8(out.stdout).ok()?;
        text.split_whitespace().next().map(str::to_owned)
    }

    fn start(self) -> std::io::Result<Child> {
        let mut command = match self {
            Program::Sqlite => Command::new("sqlite3"),
            Program::Postgres => Command::new("psql"),
        };
        match self {
            Program::Sqlite => command.arg("-batch").arg(file()),
            Program::Postgres => command.args(["-X", "-q", "-A", "-t", "-v", "ON_ERROR_STOP=1"]),
        };
        command.stdin(Stdio::piped()).stdout(Stdio::piped()).stderr(Stdio::piped()).spawn()
    }
}

/// SQLite's file.
fn file() -> std::path::PathBuf {
    std::env::temp_dir().join(format!("rizhavaan-bench-{}.db", std::process::id()))
}

/// The tables of a graph in a program.
pub struct Database {
    program: Program,
    limit: Duration,
}

impl Database {
    /// The edges with two indexes, the pairs of items that touch, and the items; with statistics.
    pub fn new(program: Program, graph: &Graph, limit: f64) -> std::io::Result<Database> {
        let mut script = String::from("DROP TABLE IF EXISTS e; DROP TABLE IF EXISTS a; DROP TABLE IF EXISTS v;\n");
        script += "CREATE TABLE e(label INTEGER, source INTEGER, target INTEGER);\n";
        script += "CREATE TABLE v(item INTEGER PRIMARY KEY, label INTEGER, day INTEGER);\nBEGIN;\n";
        let mut insert = |table: &str, rows: Vec<String>| {
            for rows in rows.chunks(500) {
                script += &format!("INSERT INTO {table} VALUES {};\n", rows.join(","));
            }
        };
        insert("e", graph.edges.iter().map(|(s, l, t)| format!("({l},{s},{t})")).collect());
        let items = graph.labels.iter().zip(&graph.days).enumerate();
        insert("v", items.map(|(item, (label, day))| format!("({item},{label},{day})")).collect());
        script += "COMMIT;\nCREATE TABLE a AS SELECT DISTINCT source, target FROM e;\n";
        script += "CREATE INDEX e1 ON e(label, source, target);\nCREATE INDEX e2 ON e(label, target, source);\n";
        script += "CREATE INDEX a1 ON a(source, target);\nCREATE INDEX a2 ON a(target, source);\n";
        script += match program {
            Program::Sqlite => "ANALYZE;\n",
            Program::Postgres => "VACUUM ANALYZE;\n",
        };
        let mut child = program.start()?;
        child.stdin.take().expect("piped").write_all(script.as_bytes())?;
        let out = child.wait_with_output()?;
        assert!(out.status.success(), "the tables are made: {}", String::from_utf8_lossy(&out.stderr));
        Ok(Database { program, limit: Duration::from_secs_f64(limit) })
    }

    /// Runs a counting query, within the limit. PostgreSQL may have so many workers of its own beside its process.
    pub fn count(&self, sql: &str, workers: usize) -> std::io::Result<Counted> {
        let mut child = self.program.start()?;
        let script = match self.program {
            Program::Sqlite => format!("PRAGMA cache_size = -400000;\n.timer on\n{sql}\n"),
            Program::Postgres => format!(
                "SET max_parallel_workers_per_gather = {workers};\nSET work_mem = '400MB';\nSET statement_timeout = {};\n\\timing on\n{sql}\n",
                self.limit.as_millis()
            ),
        };
        child.stdin.take().expect("piped").write_all(script.as_bytes())?;
        let start = Instant::now();
        while child.try_wait()?.is_none() {
            if start.elapsed() > self.limit + Duration::from_millis(200) {
                child.kill()?;
                child.wait()?;
                return Ok(Counted::Not(self.limit.as_secs_f64()));
            }
            std::thread::sleep(Duration::from_millis(2));
        }
        let out = child.wait_with_output()?;
        let text = String::from_utf8_lossy(&out.stdout).into_owned();
        let Some(count) = text.lines().find_map(|line| line.trim().parse().ok()) else {
            let fault = String::from_utf8_lossy(&out.stderr).into_owned();
            assert!(fault.contains("statement timeout"), "it counts: {text}{fault}");
            return Ok(Counted::Not(self.limit.as_secs_f64()));
        };
        let words: Vec<&str> = text.split_whitespace().collect();
        let after = |name: &str| -> f64 {
            let at = words.iter().position(|&word| word == name).expect("a time");
            words[at + 1].parse().expect("a number")
        };
        Ok(Counted::In(
            count,
            match self.program {
                // Run Time: real 0.029 user 0.028171 sys 0.000000
                Program::Sqlite => after("user") + after("sys"),
                // Time: 29.123 ms
                Program::Postgres => after("Time:") / 1e3,
            },
        ))
    }
}

impl Drop for Database {
    fn drop(&mut self) {
        if self.program == Program::Sqlite {
            let _ = std::fs::remove_file(file());
        }
    }
}
