//! `rizhavaan find`.

use std::io::Write;

use rizhavaan_core::explain::instead;
use rizhavaan_core::export;
use rizhavaan_core::json::{pair_words, FoundJson};
use rizhavaan_core::kinds::Kinds;
use rizhavaan_core::summary::Summary;
use rizhavaan_core::{chosen, Choice, Document, Found, Loaded, Options};

use crate::args::{Find, How, PlanArgument};
use crate::engine::Library;
use crate::files::{sources, Read};
use crate::list;
use crate::memory;
use crate::output::{tell, Output};
use crate::progress::Progress;
use crate::stop::{Result, Stop};

pub const FOUND: u8 = 0;
pub const NOTHING: u8 = 1;

pub fn options(how: &How, count_only: bool) -> Options {
    Options {
        plan: match how.plan {
            None => Choice::Best,
            Some(PlanArgument::Given) => Choice::Given,
            Some(PlanArgument::Picked) => Choice::Picked,
            Some(PlanArgument::Drawn) => Choice::Drawn,
            Some(PlanArgument::Cheapest) => Choice::Cheapest,
        },
        once: how.once,
        memory: how.memory.unwrap_or_else(memory::half_of_free),
        count_only,
    }
}

/// What was found, for a pattern each.
pub fn run(arguments: &Find) -> Result<u8> {
    let progress = Progress::start();
    let sources = sources(&arguments.files.files)?;
    let read = Read::new(&sources, &progress)?;
    let document = read.document();
    let patterns = read.explain(chosen(document, &arguments.pattern))?;
    if arguments.csv && patterns.len() > 1 {
        let names: Vec<&str> = patterns.iter().map(|p| p.title()).collect();
        let reason = format!("--csv lists one pattern; choose it with --pattern: {}", names.join(", "));
        return Err(Stop::Because(reason));
    }
    progress.say("packing and loading");
    let loaded = read.explain(Loaded::load(&Library, document))?;
    let options = options(&arguments.how, arguments.count);
    progress.say("searching");
    let mut all = Vec::with_capacity(patterns.len());
    for pattern in patterns {
        all.push(read.explain(loaded.find(&Library, pattern, &options))?);
    }
    progress.end();
    show_summary(document);
    for found in &all {
        hint(found, all.len() > 1);
    }
    let mut output = Output::new(arguments.output.as_deref())?;
    write(&mut output, arguments, &loaded, &all)?;
    output.finish()?;
    let is_found = all.iter().any(|found| found.places() > 0);
    Ok(if is_found { FOUND } else { NOTHING })
}

fn write(output: &mut Output, arguments: &Find, loaded: &Loaded, all: &[Found]) -> Result<()> {
    if arguments.json {
        let views: Vec<FoundJson> = all.iter().map(|found| FoundJson { loaded, found, list: true }).collect();
        let written = match &views[..] {
            [one] => serde_json::to_writer(&mut *output, one),
            several => serde_json::to_writer(&mut *output, &std::collections::BTreeMap::from([("patterns", several)])),
        };
        written.map_err(|e| Stop::Output(e.into()))?;
        writeln!(output)?;
        return Ok(());
    }
    for (i, found) in all.iter().enumerate() {
        match () {
            _ if arguments.count && all.len() == 1 => writeln!(output, "{}", found.places())?,
            _ if arguments.count => writeln!(output, "{}: {}", found.pattern.title(), found.places())?,
            _ if arguments.csv => csv(output, loaded, found)?,
            _ if arguments.sheet => {
                sheet(output, found)?;
                if arguments.key {
                    output.write_all(export::key(loaded, found).as_bytes())?;
                }
            }
            _ => {
                if i > 0 {
                    writeln!(output)?;
                }
                let limit = if arguments.output.is_none() { list::terminal() } else { None };
                list::found(output, loaded, found, limit)?;
            }
        }
    }
    Ok(())
}

/// Writes the pages of a list; each has its number and the page count.
fn sheet(output: &mut Output, found: &Found) -> Result<()> {
    let mut page = 1;
    loop {
        let (bytes, pages) = found.page(&Library, page)?;
        output.write_all(&bytes)?;
        if page == pages {
            return Ok(());
        }
        page += 1;
    }
}

fn csv(output: &mut Output, loaded: &Loaded, found: &Found) -> Result<()> {
    export::csv(&mut *output, loaded, found).map_err(|e| match e.into_kind() {
        csv::ErrorKind::Io(e) => Stop::Output(e),
        other => Stop::Because(format!("{other:?}")),
    })?;
    tell(&format!("{}, all of them", list::places(found.places())));
    Ok(())
}

/// Kinds that a summary shows.
const SHOWN_KINDS: usize = 40;

/// Where kinds have names that are not declared, each kind and its count, so that a slip stands out.
pub fn show_summary(document: &Document) {
    let is_loose = |kinds: &Kinds| !kinds.is_empty() && !kinds.is_declared();
    if !is_loose(&document.item_kinds) && !is_loose(&document.connection_kinds) {
        return;
    }
    let summary = Summary::of(document);
    let words = |kinds: &[(String, usize)]| {
        let list = |kinds: &[(String, usize)]| {
            let words: Vec<String> = kinds.iter().map(|(kind, count)| format!("{kind} {count}")).collect();
            words.join(", ")
        };
        // Of many kinds those with most and those with fewest are shown: a slip is among the fewest.
        if kinds.len() <= SHOWN_KINDS {
            return list(kinds);
        }
        let (most, rest) = kinds.split_at(SHOWN_KINDS / 2);
        let (between, fewest) = rest.split_at(rest.len() - SHOWN_KINDS / 2);
        format!("{}, {} kinds between, {}", list(most), between.len(), list(fewest))
    };
    tell(&format!("{} items: {}", summary.items, words(&summary.item_kinds)));
    tell(&format!("{} connections: {}", summary.connections, words(&summary.connection_kinds)));
}

/// Says how often each place stands, or which pairs were added so that it stands once; and where a picked plan was refused.
pub fn hint(found: &Found, with_title: bool) {
    let title = if with_title { format!("{}: ", found.pattern.title()) } else { String::new() };
    if let Some(sentence) = instead(found) {
        tell(&format!("{title}{sentence}"));
    }
    if !found.added.is_empty() {
        let pairs = pair_words(&found.pattern, &found.added).join(", ");
        tell(&format!("{title}mirror images once, by {pairs}"));
    } else if found.images > 1 && found.places() > 0 {
        tell(&format!(
            "{title}each place stands {} times, since the pattern looks the same with its vertices exchanged; \
             --once lists it once",
            found.images
        ));
    }
}
