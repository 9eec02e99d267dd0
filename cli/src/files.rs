//! The files that a command is given.

use std::fs;
use std::io::Read as _;
use std::path::{Path, PathBuf};

use rizhavaan_core::{read, Document, Reading, Source};

use crate::faults;
use crate::progress::Progress;
use crate::stop::{Result, Stop};

/// Reads the bytes of files, and of the files in folders.
pub fn sources(paths: &[PathBuf]) -> Result<Vec<Source>> {
    let mut sources = Vec::new();
    for path in paths {
        if path.as_os_str() == "-" {
            let mut bytes = Vec::new();
            std::io::stdin()
                .lock()
                .read_to_end(&mut bytes)
                .map_err(|e| Stop::Because(format!("standard input: {e}")))?;
            sources.push(Source::new("standard input", bytes));
        } else if path.is_dir() {
            folder(path, &mut sources)?;
        } else {
            sources.push(Source::new(path.display().to_string(), bytes(path)?));
        }
    }
    Ok(sources)
}

fn bytes(path: &Path) -> Result<Vec<u8>> {
    fs::read(path).map_err(|e| Stop::Because(format!("{}: {}", path.display(), reason(&e))))
}

/// Why a file cannot be read, without the number of the operating system.
pub fn reason(error: &std::io::Error) -> String {
    match error.kind() {
        std::io::ErrorKind::NotFound => "there is no such file".into(),
        std::io::ErrorKind::PermissionDenied => "it may not be read".into(),
        _ => error.to_string(),
    }
}

/// The files of a folder: `hang.txt`, and `rules.txt` beside it; or packed files; or tables, and texts beside them.
fn folder(path: &Path, sources: &mut Vec<Source>) -> Result<()> {
    let hang = path.join("hang.txt");
    if hang.is_file() {
        sources.push(Source::new(hang.display().to_string(), bytes(&hang)?));
        let rules = path.join("rules.txt");
        if rules.is_file() {
            sources.push(Source::new(rules.display().to_string(), bytes(&rules)?));
        }
        return Ok(());
    }
    if path.join("g.bin").is_file() {
        let text = crate::packed::unpack(path)?;
        sources.push(Source::new(format!("{} (unpacked)", path.display()), text.into_bytes()));
        return Ok(());
    }
    let entries = fs::read_dir(path).map_err(|e| Stop::Because(format!("{}: {}", path.display(), reason(&e))))?;
    let mut files: Vec<PathBuf> = entries.filter_map(|e| e.ok()).map(|e| e.path()).collect();
    files.retain(|f| f.is_file() && f.extension().is_some_and(|e| ["csv", "tsv", "txt"].iter().any(|x| e == *x)));
    files.sort();
    if files.is_empty() {
        let reason = format!("{}: no hang.txt, no tables and no packed files in this folder", path.display());
        return Err(Stop::Because(reason));
    }
    for file in files {
        sources.push(Source::new(file.display().to_string(), bytes(&file)?));
    }
    Ok(())
}

/// Files that were read as one text, without an error.
pub struct Read<'s> {
    pub reading: Reading<'s>,
}

impl<'s> Read<'s> {
    /// Reads sources as one text; shows errors, or warnings.
    pub fn new(sources: &'s [Source], progress: &Progress) -> Result<Read<'s>> {
        progress.say("reading");
        let reading = read(sources);
        faults::show(&reading.texts, &reading.faults);
        if reading.document.is_none() {
            return Err(Stop::Told);
        }
        Ok(Read { reading })
    }

    pub fn document(&self) -> &Document {
        self.reading.document.as_ref().expect("there is one where there is no error")
    }

    /// Shows a failure's place, where it has one.
    pub fn explain<T>(&self, result: std::result::Result<T, rizhavaan_core::Failure>) -> Result<T> {
        result.map_err(|failure| match failure {
            rizhavaan_core::Failure::At(fault) => {
                let mut fault = *fault;
                fault.severity = rizhavaan_core::text::fault::Severity::Error;
                faults::show_each(&self.reading.texts, &[&fault]);
                Stop::Told
            }
            other => Stop::Failure(other),
        })
    }
}
