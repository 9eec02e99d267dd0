//! `rizhavaan diff`.

use std::borrow::Cow;
use std::io::Write;
use std::path::PathBuf;

use rizhavaan_core::diff::{diff, Difference};
use rizhavaan_core::{chosen, write, Document, Loaded, Pattern};

use crate::args::Diff;
use crate::engine::Library;
use crate::files::{sources, Read};
use crate::find::options;
use crate::list;
use crate::output::{tell, Output};
use crate::progress::Progress;
use crate::stop::{Result, Stop};

/// A pattern, and what became of its places.
struct Told {
    title: String,
    sentence: Option<String>,
    vertices: Vec<String>,
    difference: Difference,
}

pub fn run(arguments: &Diff) -> Result<u8> {
    let progress = Progress::start();
    let all = match &arguments.hangs[..] {
        [one] => of_changes(arguments, one, &progress)?,
        [old, new] => of_two(arguments, old, new, &progress)?,
        _ => return Err(Stop::Because("give two hangs, or one with [changes]".into())),
    };
    progress.end();
    let mut output = Output::new(None)?;
    if arguments.json {
        write_json(&mut output, &all)?;
    } else {
        for (i, told) in all.iter().enumerate() {
            if i > 0 {
                writeln!(output)?;
            }
            write_table(&mut output, told)?;
        }
    }
    output.finish()?;
    let differs = all.iter().any(|told| !told.difference.gone.is_empty() || !told.difference.new.is_empty());
    Ok(u8::from(differs))
}

fn paths(hang: &PathBuf, arguments: &Diff) -> Vec<PathBuf> {
    std::iter::once(hang).chain(&arguments.patterns).cloned().collect()
}

fn of_changes(arguments: &Diff, hang: &PathBuf, progress: &Progress) -> Result<Vec<Told>> {
    let sources = sources(&paths(hang, arguments))?;
    let read = Read::new(&sources, progress)?;
    let patterns = read.explain(chosen(read.document(), &arguments.pattern))?;
    progress.say("searching");
    let before = read.explain(Loaded::load(&Library, read.document()))?;
    let after = read.explain(before.changed(&Library))?;
    let options = options(&arguments.how, false);
    let mut all = Vec::new();
    for pattern in patterns {
        let old = read.explain(before.find(&Library, pattern, &options))?;
        let new = read.explain(after.find(&Library, pattern, &options))?;
        all.push(told(pattern, diff((before.hang, &old), (after.hang, &new))));
    }
    Ok(all)
}

fn of_two(arguments: &Diff, old: &PathBuf, new: &PathBuf, progress: &Progress) -> Result<Vec<Told>> {
    let [old_sources, new_sources] = [sources(&paths(old, arguments))?, sources(&paths(new, arguments))?];
    let old_read = Read::new(&old_sources, progress)?;
    let new_read = Read::new(&new_sources, progress)?;
    let patterns = new_read.explain(chosen(new_read.document(), &arguments.pattern))?;
    progress.say("searching");
    let before = old_read.explain(Loaded::load(&Library, old_read.document()))?;
    let after = new_read.explain(Loaded::load(&Library, new_read.document()))?;
    let options = options(&arguments.how, false);
    let mut all = Vec::new();
    for pattern in patterns {
        let Some(same) = old_read.document().patterns.iter().find(|p| p.title() == pattern.title()) else {
            tell(&format!(
                "'{}' is a pattern of the new hang's file alone; give patterns with --patterns",
                pattern.title()
            ));
            continue;
        };
        if in_words(old_read.document(), same) != in_words(new_read.document(), pattern) {
            let reason =
                format!("the pattern '{}' is not the same in both; give patterns with --patterns", pattern.title());
            return Err(Stop::Because(reason));
        }
        let old = old_read.explain(before.find(&Library, same, &options))?;
        let new = new_read.explain(after.find(&Library, pattern, &options))?;
        all.push(told(pattern, diff((before.hang, &old), (after.hang, &new))));
    }
    if all.is_empty() {
        return Err(Stop::Because("no pattern stands in both; give patterns with --patterns".into()));
    }
    Ok(all)
}

/// A pattern without the numbers of its kinds, which may differ from hang to hang.
fn in_words(document: &Document, pattern: &Pattern) -> String {
    let mut out = String::new();
    write::pattern(&mut out, document, pattern);
    out
}

fn told(pattern: &Pattern, difference: Difference) -> Told {
    Told {
        title: pattern.title().to_string(),
        sentence: pattern.sentence.clone(),
        vertices: pattern.vertices(),
        difference,
    }
}

fn write_table(output: &mut Output, told: &Told) -> Result<()> {
    let Difference { gone, new, kept } = &told.difference;
    match &told.sentence {
        Some(sentence) => writeln!(output, "{}: {sentence}", told.title)?,
        None => writeln!(output, "{}", told.title)?,
    }
    let count = format!("{} gone, {} new, {} kept", gone.len(), new.len(), kept.len());
    writeln!(output, "{count}\n")?;
    if !(gone.is_empty() && new.is_empty() && kept.is_empty()) {
        let head: Vec<String> = std::iter::once(String::new()).chain(told.vertices.iter().cloned()).collect();
        let signed = [("-", gone), ("+", new), ("=", kept)];
        let rows = signed.iter().flat_map(|(sign, places)| {
            places.iter().map(move |place| {
                std::iter::once(Cow::Borrowed(*sign)).chain(place.iter().map(|n| Cow::Borrowed(n.as_str()))).collect()
            })
        });
        list::table(output, &head, rows, list::terminal())?;
        writeln!(output)?;
    }
    writeln!(output, "{count}, all of them")?;
    Ok(())
}

fn write_json(output: &mut Output, all: &[Told]) -> Result<()> {
    let list: Vec<serde_json::Value> = all
        .iter()
        .map(|told| {
            serde_json::json!({
                "pattern": told.title,
                "vertices": told.vertices,
                "gone": told.difference.gone,
                "new": told.difference.new,
                "kept": told.difference.kept,
            })
        })
        .collect();
    writeln!(output, "{}", serde_json::json!({ "patterns": list }))?;
    Ok(())
}
