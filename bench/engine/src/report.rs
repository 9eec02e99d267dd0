//! The measurements as Markdown.
use crate::counts::Counts;
use crate::databases::{Counted, PROGRAMS};
use crate::drawn::Drawn;
use crate::measure::Spread;
use crate::operations::Operation;
use crate::rows::Row;
use std::fmt::Write;
use std::process::Command;

/// The bars of time: at most 1.0 times the first plain version, and 1.1 times the second. And of instructions.
const BARS: [f64; 2] = [1.0, 1.1];
const LONG: [f64; 2] = [1.0, 1.0];

const NAMES: [&str; 2] = ["merge", "same"];

pub struct Table {
    pub shape: String,
    pub graph: String,
    pub rows: Vec<Row>,
    pub drawn: Vec<Drawn>,
    pub operations: Vec<Operation>,
}

/// Whether a ratio, as it is printed, is above a bar.
fn above(ratio: f64, bar: f64) -> bool {
    (ratio * 100.0).round() > (bar * 100.0).round()
}

/// What a row says of one plain version.
struct Verdict {
    /// The engine's time over the plain version's, round by round.
    time: Spread,
    /// The same of instructions, where they were counted.
    instructions: Option<f64>,
    slow: bool,
    /// Whether the instructions are above the bar; as the time where they were not counted.
    long: bool,
}

impl Verdict {
    fn of(row: &Row, counts: Option<&Vec<u64>>, i: usize) -> Verdict {
        let time = row.times.expect("a timed row").ratios[i];
        let instructions = counts.map(|counts| counts[2] as f64 / counts[i] as f64);
        let slow = above(time.median, BARS[i]);
        Verdict { time, instructions, slow, long: instructions.map_or(slow, |ratio| above(ratio, LONG[i])) }
    }

    fn misses(&self) -> bool {
        self.slow && self.long
    }

    fn time(&self) -> String {
        let Spread { low, median, high } = self.time;
        marked(&format!("{median:.2}"), self.misses()) + &format!(" ({low:.2}–{high:.2})")
    }

    fn instructions(&self) -> String {
        self.instructions.map_or(String::new(), |ratio| marked(&format!("{ratio:.2}"), self.misses()))
    }
}

fn marked(text: &str, misses: bool) -> String {
    if misses {
        format!("**{text}**")
    } else {
        text.into()
    }
}

pub fn milliseconds(seconds: f64) -> String {
    match seconds * 1e3 {
        ms if ms < 9.995 => format!("{ms:.2}"),
        ms if ms < 99.95 => format!("{ms:.1}"),
        ms => format!("{ms:.0}"),
    }
}

pub fn thousands(number: u64) -> String {
    let digits = number.to_string();
    let mut text = String::new();
    for (i, digit) in digits.chars().enumerate() {
        if i > 0 && (digits.len() - i) % 3 == 0 {
            text.push(',');
        }
        text.push(digit);
    }
    text
}

fn count(rows: Option<usize>) -> String {
    rows.map_or(String::new(), |rows| thousands(rows as u64))
}

/// A database's time, and how many times as long as the engine it took.
pub fn database(counted: &Option<Counted>, engine: f64) -> String {
    match counted {
        None => String::new(),
        Some(Counted::In(_, seconds)) => format!("{} ({:.1}×)", milliseconds(*seconds), seconds / engine),
        Some(Counted::Not(limit)) => format!("> {} (> {:.0}×)", milliseconds(*limit), limit / engine),
    }
}

impl Table {
    fn verdicts(&self, row: &Row, counts: &Counts) -> [Verdict; 2] {
        let counts = counts.get(&(self.shape.clone(), row.work.clone()));
        [0, 1].map(|i| Verdict::of(row, counts, i))
    }

    pub fn markdown(&self, counts: &Counts) -> String {
        let mut text = format!("### {}\n\n", self.graph);
        text += "| work | rows | merge ms | same ms | engine ms | time: engine / merge | engine / same | instructions: / merge | / same | SQLite ms | PostgreSQL ms |\n";
        text += "|---|---:|---:|---:|---:|---:|---:|---:|---:|---:|---:|\n";
        for row in &self.rows {
            let times = row.times.expect("a timed row");
            let [merge, same, engine] = times.seconds.map(milliseconds);
            let [one, two] = self.verdicts(row, counts);
            let [sqlite, postgres] = [0, 1].map(|i| database(&row.counted[i], times.seconds[2]));
            writeln!(
                text,
                "| {} | {} | {merge} | {same} | {engine} | {} | {} | {} | {} | {sqlite} | {postgres} |",
                row.work,
                count(row.rows),
                one.time(),
                two.time(),
                one.instructions(),
                two.instructions(),
            )
            .unwrap();
        }
        text
    }
}

/// The rows that are above a bar: those of which time and instructions both say so, and those of which one does.
pub fn misses(tables: &[Table], counts: &Counts) -> String {
    let mut lists = [String::new(), String::new(), String::new()];
    for table in tables {
        for row in &table.rows {
            for (verdict, name) in table.verdicts(row, counts).iter().zip(NAMES) {
                let list = match (verdict.slow, verdict.long) {
                    (true, true) => 0,
                    (true, false) => 1,
                    (false, true) => 2,
                    _ => continue,
                };
                let instructions = verdict.instructions.map_or("not counted".into(), |ratio| format!("{ratio:.2}"));
                let Spread { low, median, high } = verdict.time;
                let figures = format!("time {median:.2} ({low:.2}–{high:.2}), instructions {instructions}");
                writeln!(lists[list], "- {}: {}: of {name}: {figures}", table.graph, row.work).unwrap();
            }
        }
    }
    let mut medians = String::new();
    for (i, (name, bar)) in NAMES.iter().zip(["0.8", "1.1"]).enumerate() {
        let ratios = |ratio: &dyn Fn(Verdict) -> Option<f64>| -> Vec<f64> {
            let verdicts = tables.iter().flat_map(|table| table.rows.iter().map(|row| table.verdicts(row, counts)));
            verdicts.filter_map(|two| ratio(two.into_iter().nth(i)?)).collect()
        };
        let (times, lengths) = (ratios(&|v| Some(v.time.median)), ratios(&|v| v.instructions));
        if times.is_empty() {
            continue;
        }
        let lengths = match lengths.is_empty() {
            true => String::new(),
            false => format!(", {:.2} of its instructions", Spread::of(lengths).median),
        };
        let time = Spread::of(times).median;
        writeln!(
            medians,
            "At the median of all rows the engine takes {time:.2} of the time of {name} (the bar: {bar}){lengths}.\n"
        )
        .unwrap();
    }
    let [both, slow, long] = lists.map(|list| if list.is_empty() { "None.\n".into() } else { list });
    format!("{medians}{both}\nAbove it by time alone:\n\n{slow}\nAbove it by instructions alone:\n\n{long}")
}

/// How the engine's time grows: a line for each work, a column for each size.
pub fn growth(sizes: &[usize], tables: &[Table], counts: &Counts) -> String {
    let mut text = String::from("| work |");
    sizes.iter().for_each(|&m| write!(text, " {} |", thousands(m as u64)).unwrap());
    text += " instructions |\n|---|";
    sizes.iter().for_each(|_| text += "---:|");
    text += "---:|\n";
    let Some(first) = tables.first() else { return text };
    for i in 0..first.rows.len() {
        write!(text, "| {} |", first.rows[i].work).unwrap();
        for table in tables {
            let row = &table.rows[i];
            let [one, two] = table.verdicts(row, counts);
            let rows = row.rows.map_or(String::new(), |_| format!("{} rows, ", count(row.rows)));
            let time = milliseconds(row.times.expect("a timed row").seconds[2]);
            write!(text, " {rows}{time} ms ({}; {}) |", one.time(), two.time()).unwrap();
        }
        let [one, two] = first.verdicts(&first.rows[i], counts);
        writeln!(text, " {}; {} |", one.instructions(), two.instructions()).unwrap();
    }
    text
}

/// The drawn plans beside the best and the worst ordering.
pub fn drawn(tables: &[Table]) -> String {
    let mut text =
        String::from("| graph | pattern | rows | orderings | drawn ms | best ms | worst ms | drawn / best |\n");
    text += "|---|---|---:|---:|---:|---:|---:|---:|\n";
    for table in tables {
        for row in &table.drawn {
            let plan = |i: usize| {
                let (order, cost) = &row.orders[i];
                format!("{}: {order}, cost {}", milliseconds(row.times.seconds[i]), thousands(*cost))
            };
            let Spread { low, median, high } = row.times.ratios[0];
            writeln!(
                text,
                "| {} | {} | {} | {} | {} | {} | {} | {median:.2} ({low:.2}–{high:.2}) |",
                table.shape,
                row.pattern,
                thousands(row.rows as u64),
                row.orderings,
                plan(2),
                plan(0),
                plan(1),
            )
            .unwrap();
        }
    }
    text
}

/// The other operations, each beside what one would do without it.
pub fn operations(tables: &[Table], counts: &Counts) -> String {
    let mut text = String::from("| graph | operation | ms | beside | its ms | ratio | of instructions |\n");
    text += "|---|---|---:|---|---:|---:|---:|\n";
    for table in tables {
        for operation in &table.operations {
            let Some(times) = operation.times else { continue };
            let Spread { low, median, high } = times.ratios[0];
            let counts = counts.get(&(table.shape.clone(), operation.work.clone()));
            let ratio = counts.map_or(String::new(), |counts| format!("{:.2}", counts[1] as f64 / counts[0] as f64));
            writeln!(
                text,
                "| {} | {} | {} | {} | {} | {median:.2} ({low:.2}–{high:.2}) | {ratio} |",
                table.shape,
                operation.work,
                short(times.seconds[1]),
                operation.beside,
                short(times.seconds[0]),
            )
            .unwrap();
        }
    }
    text
}

/// Milliseconds, of which there may be few.
fn short(seconds: f64) -> String {
    match seconds * 1e3 {
        ms if ms < 0.1 => format!("{ms:.4}"),
        _ => milliseconds(seconds),
    }
}

fn first_line(program: &str, arguments: &[&str]) -> Option<String> {
    let out = Command::new(program).args(arguments).output().ok()?;
    Some(String::from_utf8_lossy(&out.stdout).lines().next()?.trim().to_owned())
}

/// The machine and the programs that built what was measured.
pub fn machine(rounds: usize, minutes: f64) -> String {
    let read = |file: &str| std::fs::read_to_string(file).unwrap_or_default();
    let value = |text: &str, name: &str| {
        let line = text.lines().find(|line| line.starts_with(name)).unwrap_or_default();
        line.split_once(':').map_or(String::new(), |(_, value)| value.trim().to_owned())
    };
    let (cpu, memory) = (read("/proc/cpuinfo"), read("/proc/meminfo"));
    let cores = cpu.lines().filter(|line| line.starts_with("processor")).count();
    let gigabytes = value(&memory, "MemTotal").trim_end_matches(" kB").parse::<f64>().unwrap_or(0.0) / 1e6;
    let load = read("/proc/loadavg");
    let load = load.split_whitespace().take(3).collect::<Vec<_>>().join(" ");
    let missing = || "not there, its column is empty".to_owned();
    let [sqlite, postgres] = PROGRAMS.map(|program| program.version().unwrap_or_else(missing));
    [
        format!(
            "- Processor: {}, {cores} cores, cache {}; {gigabytes:.0} GB of memory",
            value(&cpu, "model name"),
            value(&cpu, "cache size")
        ),
        format!("- System: Linux {}", first_line("uname", &["-r"]).unwrap_or_default()),
        format!("- Rust: {}", first_line("rustc", &["--version"]).unwrap_or_default()),
        format!("- Instructions: {}", crate::counts::version().unwrap_or_else(missing)),
        format!("- SQLite: {sqlite}"),
        format!("- PostgreSQL: {postgres}"),
        format!("- Rounds: {rounds} or more a row"),
        format!("- Minutes in all: {minutes:.0}; load average at the end: {load}"),
        String::new(),
    ]
    .join("\n")
}
