//! A list of places as comma-separated values, and the key to the numbers on its pages.

use std::collections::BTreeSet;
use std::fmt::Write as _;
use std::io::Write;

use crate::find::{Found, Loaded};

/// Writes the places by names below a head, with CRLF.
pub fn csv<W: Write>(out: W, loaded: &Loaded, found: &Found) -> csv::Result<()> {
    let mut writer = csv::WriterBuilder::new().terminator(csv::Terminator::CRLF).from_writer(out);
    writer.write_record(found.pattern.vertices())?;
    for row in found.rows() {
        writer.write_record(row.iter().map(|&item| loaded.hang.item(item).into_owned()))?;
    }
    writer.flush()?;
    Ok(())
}

/// Columns of a line of the sheet, and those of the number and the blanks before a name in its key.
const SHEET_COLUMNS: usize = 80;
const KEY_INDENT: usize = 10;

/// Which item each number on the pages is, ascending, in lines as wide as theirs; a long name goes on in the next line.
pub fn key(loaded: &Loaded, found: &Found) -> String {
    let items: BTreeSet<u32> = found.rows.iter().copied().collect();
    let heading = format!("Key to the item numbers above: {} items", items.len());
    let mut out = format!("{heading:<SHEET_COLUMNS$}\n");
    for item in items {
        let name: Vec<char> = loaded.hang.item(item).chars().collect();
        for (i, part) in name.chunks(SHEET_COLUMNS - KEY_INDENT).enumerate() {
            let number = if i == 0 { item.to_string() } else { String::new() };
            let line = format!("{number:>8}  {}", part.iter().collect::<String>());
            let _ = writeln!(out, "{line:<SHEET_COLUMNS$}");
        }
    }
    out
}
