//! A list of places as a table of names.

use std::borrow::Cow;
use std::io::{self, IsTerminal, Write};

pub use rizhavaan_core::find::places;
use rizhavaan_core::{Found, Loaded};
use unicode_width::UnicodeWidthStr;

/// The columns of the terminal that standard output is, if it is one.
pub fn terminal() -> Option<usize> {
    if !io::stdout().is_terminal() {
        return None;
    }
    terminal_size::terminal_size().map(|(width, _)| usize::from(width.0))
}

const GAP: &str = "  ";

/// Writes rows of names below a head: a column for each vertex, or, where they are wider than the terminal, a line for each.
pub fn table<'a>(
    out: &mut dyn Write,
    head: &[String],
    rows: impl Iterator<Item = Vec<Cow<'a, str>>> + Clone,
    limit: Option<usize>,
) -> io::Result<()> {
    let mut widths: Vec<usize> = head.iter().map(|name| name.width()).collect();
    for row in rows.clone() {
        for (width, name) in widths.iter_mut().zip(&row) {
            *width = (*width).max(name.width());
        }
    }
    let all = widths.iter().sum::<usize>() + GAP.len() * widths.len().saturating_sub(1);
    if limit.is_some_and(|limit| all > limit) {
        return stacked(out, head, rows);
    }
    line(out, &widths, head.iter().map(|name| Cow::Borrowed(name.as_str())))?;
    for row in rows {
        line(out, &widths, row.into_iter())?;
    }
    Ok(())
}

fn line<'a>(
    out: &mut dyn Write,
    widths: &[usize],
    names: impl ExactSizeIterator<Item = Cow<'a, str>>,
) -> io::Result<()> {
    let last = names.len() - 1;
    for (i, name) in names.enumerate() {
        out.write_all(name.as_bytes())?;
        if i < last {
            let blanks = widths[i] - name.width() + GAP.len();
            write!(out, "{:blanks$}", "")?;
        }
    }
    out.write_all(b"\n")
}

fn stacked<'a>(out: &mut dyn Write, head: &[String], rows: impl Iterator<Item = Vec<Cow<'a, str>>>) -> io::Result<()> {
    let width = head.iter().map(|name| name.width()).max().unwrap_or(0);
    for (i, row) in rows.enumerate() {
        if i > 0 {
            writeln!(out)?;
        }
        for (vertex, name) in head.iter().zip(row) {
            let blanks = width - vertex.width();
            writeln!(out, "{vertex}{:blanks$}{GAP}{name}", "")?;
        }
    }
    Ok(())
}

/// Writes the places of a pattern, with their number first and last, in so many columns where they are bound.
pub fn found(out: &mut dyn Write, loaded: &Loaded, found: &Found, limit: Option<usize>) -> io::Result<()> {
    if found.pattern.name.is_some() {
        match &found.pattern.sentence {
            Some(sentence) => writeln!(out, "{}: {sentence}", found.pattern.title())?,
            None => writeln!(out, "{}", found.pattern.title())?,
        }
    }
    let count = places(found.places());
    writeln!(out, "{count}\n")?;
    if found.places() == 0 {
        writeln!(out, "{}\n", rizhavaan_core::why::why(loaded, found))?;
    } else {
        let rows = found.rows().map(|row| row.iter().map(|&item| loaded.hang.item(item)).collect());
        table(out, &found.pattern.vertices(), rows, limit)?;
        writeln!(out)?;
    }
    writeln!(out, "{count}, all of them")
}
