//! The words that runs take, before rows were streamed and since.
use crate::chart::{chart, Bar, Line};
use crate::report::{milliseconds, thousands, Table};
use crate::rows::{Memory, Row};
use std::fmt::Write;

/// A word in kilobytes.
const WORD: f64 = 4e-3;

fn rows(tables: &[Table]) -> impl Iterator<Item = (&Table, &Row, &Memory)> {
    let of_table = |table| move |row| (table, row);
    let all = tables.iter().flat_map(move |table: &Table| table.rows.iter().map(of_table(table)));
    all.filter_map(|(table, row): (&Table, &Row)| Some((table, row, row.memory.as_ref()?)))
}

/// A table of them: words by the rules before and by the sums since, with the list's; and the time in just the need beside that in which each row
/// is found once.
pub fn markdown(tables: &[Table]) -> String {
    let mut text = String::from(
        "| graph | work | rows | list | scratch before | now | now / before, with the list | each row once | ms in that | in just the need | ratio |\n",
    );
    text += "|---|---|---:|---:|---:|---:|---:|---:|---:|---:|---:|\n";
    for (table, row, memory) in rows(tables) {
        let needs = &memory.needs;
        let with_list = |words: usize| (words + memory.list) as f64;
        let [ample, tight, ratio] = memory.times.map_or(Default::default(), |times| {
            let spread = times.ratios[0];
            let ratio = format!("{:.2} ({:.2}–{:.2})", spread.median, spread.low, spread.high);
            [milliseconds(times.seconds[0]), milliseconds(times.seconds[1]), ratio]
        });
        let _ = writeln!(
            text,
            "| {} | {} | {} | {} | {} | {} | {:.2} | {} | {ample} | {tight} | {ratio} |",
            table.shape,
            row.work.trim_end_matches(", cache on"),
            thousands(row.rows.unwrap_or(0) as u64),
            thousands(memory.list as u64),
            thousands(needs.before as u64),
            thousands(needs.now as u64),
            with_list(needs.now) / with_list(needs.before).max(1.0),
            thousands(needs.roomy as u64),
        );
    }
    text
}

/// The runs whose scratch was largest, as a chart.
pub fn picture(tables: &[Table]) -> String {
    let mut all: Vec<(&Table, &Row, &Memory)> = rows(tables).collect();
    all.sort_by_key(|(_, _, memory)| std::cmp::Reverse(memory.needs.before));
    let line = |(table, row, memory): &(&Table, &Row, &Memory)| -> Line {
        let shape = table.shape.split(',').next().unwrap_or_default();
        let work = row.work.trim_end_matches(", cache on");
        let bar = |words: usize| Some(Bar::Of(words.max(1) as f64 * WORD));
        let words = [memory.needs.before, memory.needs.now, memory.list];
        (format!("{work}, {shape}"), words.map(bar).to_vec())
    };
    let lines: Vec<Line> = all.iter().take(14).map(line).collect();
    chart("Memory that a run needs", "KB", &["scratch before", "scratch since rows are streamed", "list"], &lines)
}
