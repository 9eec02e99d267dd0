//! Runs of the program `trace`, each in a folder of its own, and what it has to print. Whatever it prints, each run is held to
//! what is true of all: exit status 0, nothing on standard error, and the folder stays as it was.
use super::graph::Graph;
use super::matcher::Matcher;
use super::plan;
use super::query::Query;
use super::rules;
use std::collections::BTreeMap;
use std::fs;
use std::path::{Path, PathBuf};
use std::process::{Command, Stdio};
use std::sync::atomic::{AtomicUsize, Ordering};
use std::sync::Once;

/// The files, in the order in which the program looks at them.
pub const FILES: [&str; 3] = ["g.bin", "q.bin", "p.bin"];

pub const MAX_BYTES: usize = 8_192;
pub const STORE_WORDS: usize = 4_096;
pub const SCRATCH_WORDS: usize = 2_048;
pub const LIST_WORDS: usize = 2_048;

/// Where the folders of the runs are made.
const RUNS: &str = concat!(env!("CARGO_MANIFEST_DIR"), "/target/tests");

/// The bytes of g.bin, q.bin and p.bin.
pub type Files = [Vec<u8>; 3];

/// What stands under a file's name.
#[derive(Clone, Debug)]
pub enum Place {
    Missing,
    File(Vec<u8>),
    Folder,
    Link(&'static str),
}

impl Place {
    fn make(&self, path: &Path) {
        match self {
            Place::Missing => Ok(()),
            Place::File(bytes) => fs::write(path, bytes),
            Place::Folder => fs::create_dir(path),
            Place::Link(target) => std::os::unix::fs::symlink(target, path),
        }
        .unwrap_or_else(|error| panic!("{}: {error}", path.display()));
    }
}

/// A fresh folder. It goes with its owner, but stays where what is true of all runs is not true of this one.
struct Folder(PathBuf);

impl Folder {
    fn new() -> Folder {
        static COUNT: AtomicUsize = AtomicUsize::new(0);
        let name = format!("program-{}-{}", std::process::id(), COUNT.fetch_add(1, Ordering::Relaxed));
        let path = Path::new(RUNS).join(name);
        if path.exists() {
            fs::remove_dir_all(&path).unwrap();
        }
        fs::create_dir_all(&path).unwrap();
        Folder(path)
    }

    /// What it holds: each name, and the bytes of those that are files.
    fn contents(&self) -> BTreeMap<PathBuf, Option<Vec<u8>>> {
        let held = |entry: fs::DirEntry| {
            let is_file = entry.file_type().unwrap().is_file();
            (entry.path(), is_file.then(|| fs::read(entry.path()).unwrap()))
        };
        fs::read_dir(&self.0).unwrap().map(|entry| held(entry.unwrap())).collect()
    }
}

impl Drop for Folder {
    fn drop(&mut self) {
        if !std::thread::panicking() {
            fs::remove_dir_all(&self.0).unwrap();
        }
    }
}

/// The program that `crates/build trace` makes, or the one that TRACE_BIN names.
fn program() -> PathBuf {
    let built = || concat!(env!("CARGO_MANIFEST_DIR"), "/target/bin/trace").into();
    let path = std::env::var_os("TRACE_BIN").unwrap_or_else(built);
    fs::canonicalize(&path).unwrap_or_else(|_| panic!("{path:?} is missing: `crates/build trace` writes it"))
}

/// What the program prints where these stand in its folder, and these variables in its environment.
fn run_with(places: &[Place; 3], variables: &[(&str, &str)]) -> String {
    let folder = Folder::new();
    for (name, place) in FILES.iter().zip(places) {
        place.make(&folder.0.join(name));
    }
    let before = folder.contents();
    let program = program();
    let output = Command::new(&program)
        .current_dir(&folder.0)
        .envs(variables.iter().copied())
        .stdin(Stdio::null())
        .output()
        .unwrap_or_else(|error| panic!("{}: {error}", program.display()));
    let stdout = String::from_utf8(output.stdout).expect("what is printed is text");
    assert_eq!(output.status.code(), Some(0), "in {:?}, after {stdout:?}", folder.0);
    assert_eq!(String::from_utf8_lossy(&output.stderr), "", "standard error in {:?}", folder.0);
    assert!(folder.contents() == before, "{:?} is changed", folder.0);
    stdout
}

pub fn run_places(places: &[Place; 3]) -> String {
    run_with(places, &[])
}

pub fn run(files: &Files) -> String {
    run_places(&files.clone().map(Place::File))
}

/// The same with reads that bring less: what the variables say is in short_reads.c.
pub fn run_reading(files: &Files, variables: &[(&str, &str)]) -> String {
    static BUILT: Once = Once::new();
    BUILT.call_once(|| {
        let source = concat!(env!("CARGO_MANIFEST_DIR"), "/tests/short_reads.c");
        let library = format!("{RUNS}/short_reads.so");
        let options = ["-std=c11", "-Wall", "-Wextra", "-Werror", "-shared", "-fPIC", "-o", &library, source];
        fs::create_dir_all(RUNS).unwrap();
        assert!(Command::new("cc").args(options).status().expect("cc is there").success());
    });
    // The library stands beside the folders.
    run_with(&files.clone().map(Place::File), &[&[("LD_PRELOAD", "../short_reads.so")], variables].concat())
}

/// What the document has the program print: by the judge's readers, and its rules.
pub fn printed(files: &Files) -> String {
    if let Some(at) = files.iter().position(|file| file.len() > MAX_BYTES) {
        return format!("long {}\n", FILES[at]);
    }
    match answer(files) {
        Err(refusal) => format!("refused {refusal}\n"),
        Ok((n, answer)) => {
            let rules::Answer { count, cost, build, probe, rows, .. } = answer;
            let mut text = format!("matches {count} cost {cost} build {build} probe {probe}\n");
            for row in rows.chunks(n) {
                text += &row.iter().map(u32::to_string).collect::<Vec<_>>().join(" ");
                text += "\n";
            }
            text
        }
    }
}

/// The refusal, or the number of query vertices and the answer.
pub fn answer(files: &Files) -> Result<(usize, rules::Answer), u32> {
    let (n, answer) = unbounded(files)?;
    match () {
        _ if answer.need > SCRATCH_WORDS => Err(20),
        _ if answer.rows.len() > LIST_WORDS => Err(21),
        _ => Ok((n, answer)),
    }
}

/// The same with scratch and list that are long enough.
pub fn unbounded([g, q, p]: &Files) -> Result<(usize, rules::Answer), u32> {
    let graph = Graph::read(g)?;
    if graph.store_size() > STORE_WORDS {
        return Err(5);
    }
    let query = Query::read(q)?;
    let operators = plan::read(&query, p)?;
    let answer = rules::run(&Matcher::new(&graph), &query, &operators, true, 1 << 20).expect("a result of few rows");
    Ok((query.vertices(), answer))
}
