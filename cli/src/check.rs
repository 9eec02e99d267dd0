//! `rizhavaan check`.

use std::io::{IsTerminal, Write};
use std::sync::atomic::{AtomicUsize, Ordering};
use std::sync::Mutex;

use rizhavaan_core::document::{Expect, Pattern};
use rizhavaan_core::{Failure, Loaded, Options};

use crate::args::Check;
use crate::engine::Library;
use crate::files::{sources, Read};
use crate::find::{options, show_summary};
use crate::list::places;
use crate::output::Output;
use crate::progress::Progress;
use crate::stop::{Result, Stop};

/// A pattern that was held to what is expected of it.
struct Held<'d> {
    pattern: &'d Pattern,
    expect: Expect,
    places: usize,
}

impl Held<'_> {
    fn holds(&self) -> bool {
        self.expect.holds(self.places as u64)
    }
}

pub fn run(arguments: &Check) -> Result<u8> {
    let progress = Progress::start();
    let sources = sources(&arguments.files.files)?;
    let read = Read::new(&sources, &progress)?;
    let document = read.document();
    let with: Vec<(&Pattern, Expect)> = document.patterns.iter().filter_map(|p| Some((p, p.expect?))).collect();
    if with.is_empty() {
        let reason = "no pattern has an 'expect': write 'expect 0' or 'expect at least 1' below its [query]";
        return Err(Stop::Because(reason.into()));
    }
    progress.say("packing and loading");
    let loaded = read.explain(Loaded::load(&Library, document))?;
    progress.say("searching");
    let options = options(&arguments.how, true);
    let mut held = Vec::with_capacity(with.len());
    for (found, (pattern, expect)) in find_all(&loaded, &with, &options).into_iter().zip(&with) {
        held.push(Held { pattern, expect: *expect, places: read.explain(found)? });
    }
    progress.end();
    show_summary(document);
    let mut output = Output::new(None)?;
    if arguments.json {
        write_json(&mut output, &held)?;
    } else {
        write(&mut output, &held, document.patterns.len() - held.len())?;
    }
    output.finish()?;
    Ok(u8::from(!held.iter().all(Held::holds)))
}

/// The number of places of each pattern, on all cores.
fn find_all(
    loaded: &Loaded,
    with: &[(&Pattern, Expect)],
    options: &Options,
) -> Vec<std::result::Result<usize, Failure>> {
    let cores = std::thread::available_parallelism().map_or(1, |n| n.get()).min(with.len());
    let options = Options { memory: options.memory / cores, ..*options };
    let next = AtomicUsize::new(0);
    let done = Mutex::new(Vec::with_capacity(with.len()));
    std::thread::scope(|scope| {
        for _ in 0..cores {
            scope.spawn(|| loop {
                let i = next.fetch_add(1, Ordering::Relaxed);
                let Some((pattern, _)) = with.get(i) else { return };
                let found = loaded.find(&Library, pattern, &options).map(|found| found.places());
                done.lock().expect("no thread panics").push((i, found));
            });
        }
    });
    let mut done = done.into_inner().expect("no thread panics");
    done.sort_by_key(|(i, _)| *i);
    done.into_iter().map(|(_, found)| found).collect()
}

fn write(output: &mut Output, held: &[Held], without: usize) -> Result<()> {
    let is_terminal = std::io::stdout().is_terminal() && std::env::var_os("NO_COLOR").is_none();
    let width = held.iter().map(|h| h.pattern.title().chars().count()).max().unwrap_or(0);
    for h in held {
        let (word, colour) = if h.holds() { ("ok  ", "32") } else { ("FAIL", "31") };
        let mark = if is_terminal { format!("\x1b[{colour}m{word}\x1b[0m") } else { word.to_string() };
        let blanks = width - h.pattern.title().chars().count();
        let sentence = h.pattern.sentence.as_ref().map_or_else(String::new, |s| format!("  {s}"));
        let counts = format!("{}, expected {}", places(h.places), h.expect);
        writeln!(output, "{mark}  {}{:blanks$}  {counts}{sentence}", h.pattern.title(), "")?;
    }
    let good = held.iter().filter(|h| h.holds()).count();
    let rest = if without > 0 { format!("; {without} without 'expect' not looked for") } else { String::new() };
    writeln!(output, "{good} of {} as expected{rest}", held.len())?;
    Ok(())
}

fn write_json(output: &mut Output, held: &[Held]) -> Result<()> {
    let list: Vec<serde_json::Value> = held
        .iter()
        .map(|h| {
            serde_json::json!({
                "pattern": h.pattern.title(),
                "sentence": h.pattern.sentence,
                "places": h.places,
                "expect": h.expect.to_string(),
                "ok": h.holds(),
            })
        })
        .collect();
    let ok = held.iter().all(Held::holds);
    writeln!(output, "{}", serde_json::json!({ "ok": ok, "patterns": list }))?;
    Ok(())
}
