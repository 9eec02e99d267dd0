//! What was measured, as a table of patterns and as percentiles.
use crate::measure::Measured;
use crate::record::Bench;
use picker_bench::picker::query::{Operator, Query};
use std::fmt::Write;

/// Below so many nanoseconds besides the store check, a ratio without that check is noise.
const SHORT: f64 = 1e6;

pub fn plan_text(plan: &[Operator]) -> String {
    let step = |operator: &Operator| match *operator {
        Operator::Scan(i) => format!("s{i}"),
        Operator::Extend(v) => format!("e{v}"),
        Operator::Join => "j".into(),
    };
    plan.iter().map(step).collect::<Vec<_>>().join(" ")
}

pub fn query_text(query: &Query) -> String {
    let vertex = |filter: &picker_bench::picker::query::Filter| match filter.any_day() {
        true => filter.label.to_string(),
        false => format!("{}@{}-{}", filter.label, filter.first, filter.last),
    };
    let vertices: Vec<String> = query.filters.iter().map(vertex).collect();
    let edges: Vec<String> = query.edges.iter().map(|e| format!("{}-{}>{}", e.from, e.label, e.to)).collect();
    let pairs: Vec<String> = query.pairs.iter().map(|p| format!("{}<{}", p.0, p.1)).collect();
    format!("({}) {} {}", vertices.join(" "), edges.join(" "), pairs.join(" "))
}

/// A time without the store check.
fn bare(m: &Measured, time: f64) -> f64 {
    (time - m.recorded.check_time).max(1.0)
}

pub fn table(found: &[Measured]) -> String {
    let mut out = String::from(
        "ratio\tbare\tdrawn\tbest ms\tthought\tpicked ms\tthought\tpick us\tpicked\tbest\trows\tquery\n",
    );
    for m in found {
        let (ratio, naked) = (m.picked_time / m.best_time, bare(m, m.picked_time) / bare(m, m.best_time));
        let drawn = m.drawn_time.map_or(f64::INFINITY, |drawn| drawn / m.best_time);
        let rows: Vec<String> = m.picked.operators.iter().map(|e| format!("{:.0}", e.rows)).collect();
        let _ = writeln!(
            out,
            "{ratio:.3}\t{naked:.3}\t{drawn:.3}\t{:.3}\t{:.3}\t{:.3}\t{:.3}\t{:.0}\t{}\t{}\t{}/{}\t{}",
            bare(m, m.best_time) / 1e6,
            m.best_thought / 1e6,
            bare(m, m.picked_time) / 1e6,
            m.picked.time / 1e6,
            m.pick_time / 1e3,
            plan_text(&m.plan),
            plan_text(&m.best),
            rows.join(" "),
            m.recorded.rows,
            query_text(m.query()),
        );
    }
    out
}

/// The numbers at 50, 90, 95, 99 and 100 %.
fn spread(mut numbers: Vec<f64>) -> String {
    if numbers.is_empty() {
        return "| – | – | – | – | – | 0".into();
    }
    numbers.sort_by(f64::total_cmp);
    let at = |percent: usize| numbers[((numbers.len() - 1) * percent + 50) / 100];
    let text = |number: f64| match number {
        x if x >= 1000.0 => format!("{x:.0}"),
        x => format!("{x:.2}"),
    };
    let cells: Vec<String> = [50, 90, 95, 99, 100].iter().map(|&percent| text(at(percent))).collect();
    format!("| {} | {}", cells.join(" | "), numbers.len())
}

/// What a graph is called.
fn title(name: &str) -> &str {
    match name {
        "rig" => "The rig",
        "power" => "A power law of 1.3, one label",
        "hubs" => "A power law of 1.8, three labels",
        "slings" => "Slings",
        _ => "Debian's packages",
    }
}

pub fn percentiles(name: &str, bench: &Bench, found: &[Measured]) -> String {
    let sizes = || found.iter().map(|m| m.query().vertices());
    let (least, most, name) = (sizes().min().unwrap_or(0), sizes().max().unwrap_or(0), title(name));
    let mut out = format!(
        "\n### {name}, patterns of {least} to {most} vertices\n\n| | 50 % | 90 % | 95 % | 99 % | most | patterns |\n|---|--:|--:|--:|--:|--:|--:|\n"
    );
    let mut row = |title: &str, numbers: Vec<f64>| {
        let _ = writeln!(out, "| {title} {} |", spread(numbers));
    };
    let drawn = |m: &Measured| m.drawn_time.unwrap_or(f64::INFINITY);
    let long: Vec<&Measured> = found.iter().filter(|m| bare(m, m.best_time) >= SHORT).collect();
    row("picked / best", found.iter().map(|m| m.picked_time / m.best_time).collect());
    row("drawn / best", found.iter().map(|m| drawn(m) / m.best_time).collect());
    let cheapest = |m: &Measured| Some(m.cheapest_time? / m.best_time);
    row("cheapest / best", found.iter().filter_map(cheapest).collect());
    row("picked / drawn", found.iter().map(|m| m.picked_time / drawn(m)).collect());
    row(
        "picked / best, without store check",
        long.iter().map(|m| bare(m, m.picked_time) / bare(m, m.best_time)).collect(),
    );
    row(
        "drawn / best, without store check",
        long.iter().map(|m| bare(m, drawn(m)) / bare(m, m.best_time)).collect(),
    );
    row(
        "picked / drawn, without store check",
        long.iter().map(|m| bare(m, m.picked_time) / bare(m, drawn(m))).collect(),
    );
    row(
        "choosing and running: picked / best run",
        found.iter().map(|m| (m.pick_time + m.picked_time) / m.best_time).collect(),
    );
    row(
        "choosing and running: drawn / best run",
        found.iter().map(|m| (m.draw_time + drawn(m)) / m.best_time).collect(),
    );
    let cheapest = |m: &Measured| Some((m.recorded.check_time + m.all_time + m.cheapest_time?) / m.best_time);
    row("choosing and running: cheapest / best run", found.iter().filter_map(cheapest).collect());
    row("picking, µs", found.iter().map(|m| m.pick_time / 1e3).collect());
    row("picking / bar", found.iter().map(|m| m.pick_time / (0.02 * m.picked_time).max(2e6)).collect());
    row("estimated / true time", long.iter().map(|m| m.picked.time / bare(m, m.picked_time)).collect());
    let rows = |m: &Measured| {
        let estimated = m.picked.operators.last().map_or(0.0, |estimate| estimate.rows);
        (estimated + 1.0) / (m.recorded.rows as f64 + 1.0)
    };
    row("estimated / true rows", found.iter().map(rows).collect());
    row("the larger of that and its inverse", found.iter().map(|m| rows(m).max(1.0 / rows(m))).collect());
    let total = |time: &dyn Fn(&Measured) -> f64| {
        found.iter().filter(|m| m.drawn_time.is_some()).map(|m| bare(m, time(m))).sum::<f64>()
    };
    let (mine, its, least) = (total(&|m| m.picked_time), total(&drawn), total(&|m| m.best_time));
    let joins = found.iter().filter(|m| m.plan.contains(&Operator::Join)).count();
    let skipped: usize = found.iter().map(|m| m.recorded.skipped).sum();
    let run: usize = found.iter().map(|m| m.recorded.timed.len()).sum();
    let missing = found.iter().filter(|m| m.drawn_time.is_none()).count();
    let _ = writeln!(
        out,
        "\nAll runs together, without the store check: picked {:.3} and drawn {:.3} of the best. {joins} picked plans have a join. \
         {run} orderings were run, {skipped} passed by as too long or too large, {missing} drawn plans among them.",
        mine / least,
        its / least
    );
    let mut worst: Vec<&Measured> = found.iter().collect();
    worst.sort_by(|a, b| (b.picked_time / b.best_time).total_cmp(&(a.picked_time / a.best_time)));
    let _ = writeln!(out, "The three picks furthest from the best:\n");
    for m in worst.iter().take(3) {
        let _ = writeln!(
            out,
            "- {:.2}: {:.2} ms by `{}`, {:.2} ms by `{}`, {} rows: `{}`",
            m.picked_time / m.best_time,
            m.picked_time / 1e6,
            plan_text(&m.plan),
            m.best_time / 1e6,
            plan_text(&m.best),
            m.recorded.rows,
            query_text(m.query()).trim_end(),
        );
    }
    out.push('\n');
    let enough = found.iter().filter(|m| m.picked.list as usize >= m.recorded.rows * m.query().vertices()).count();
    let _ = writeln!(out, "The first list was long enough for {enough} of {} patterns.", found.len());
    let (statistics, check) = (bench.statistics_time / 1e6, bench.check_time / 1e6);
    let _ = writeln!(out, "Statistics {statistics:.2} ms, store check {check:.2} ms.");
    out
}
