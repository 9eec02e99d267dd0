//! Instructions, by callgrind: they repeat, and two machines with the same programs agree on them. A child of this program runs each version of each
//! row once under valgrind, on small graphs of the same shapes; callgrind collects in the function `counted` alone, and writes a file
//! each time that it is left.
use std::collections::HashMap;
use std::path::Path;
use std::process::{Child, Command, Stdio};

/// By shape and work: the instructions of each version, the engine's last.
pub type Counts = HashMap<(String, String), Vec<u64>>;

pub fn version() -> Option<String> {
    let out = Command::new("valgrind").arg("--version").output().ok()?;
    Some(String::from_utf8_lossy(&out.stdout).trim().to_owned())
}

fn start(folder: &Path, part: usize, parts: usize, quick: bool) -> std::io::Result<Child> {
    Command::new("valgrind")
        .args(["--tool=callgrind", "--toggle-collect=bench::measure::counted", "--dump-after=bench::measure::counted"])
        .arg(format!("--callgrind-out-file={}/part{part}.out", folder.display()))
        .arg(format!("--log-file={}/part{part}.log", folder.display()))
        .arg(std::env::current_exe()?)
        .args(["--count", &format!("{part}/{parts}")])
        .args(quick.then_some("--quick"))
        .stdout(Stdio::piped())
        .stderr(Stdio::null())
        .spawn()
}

/// The instructions in a file that callgrind wrote.
fn total(file: &Path) -> std::io::Result<u64> {
    let text = std::fs::read_to_string(file)?;
    let line = text.lines().rev().find_map(|line| line.strip_prefix("totals: "));
    Ok(line.and_then(|number| number.trim().parse().ok()).expect("a total"))
}

/// Counts every row, in as many processes at once as there are parts; nothing where there is no valgrind.
pub fn counts(parts: usize, quick: bool) -> std::io::Result<Counts> {
    let mut counts = Counts::new();
    if version().is_none() {
        return Ok(counts);
    }
    eprintln!("instructions");
    let folder = std::env::temp_dir().join(format!("rizhavaan-bench-{}", std::process::id()));
    std::fs::create_dir_all(&folder)?;
    let children = (0..parts).map(|part| start(&folder, part, parts, quick)).collect::<std::io::Result<Vec<_>>>()?;
    for (part, child) in children.into_iter().enumerate() {
        let out = child.wait_with_output()?;
        assert!(out.status.success(), "the rows are counted");
        let mut files = 1..;
        for line in String::from_utf8_lossy(&out.stdout).lines() {
            let [versions, shape, work] = line.splitn(3, '\t').collect::<Vec<_>>()[..] else { panic!("{line}") };
            let files = files.by_ref().take(versions.parse().expect("a number"));
            let numbers = files.map(|file| total(&folder.join(format!("part{part}.out.{file}"))));
            counts.insert((shape.into(), work.into()), numbers.collect::<std::io::Result<_>>()?);
        }
    }
    std::fs::remove_dir_all(&folder)?;
    Ok(counts)
}
