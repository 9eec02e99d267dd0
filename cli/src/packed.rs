//! `rizhavaan pack` and `unpack`.

use std::fs;
use std::io::ErrorKind;
use std::path::Path;

use rizhavaan_core::names_file;
use rizhavaan_core::packing::{Files, Packed};

use crate::args::{Pack, Unpack};
use crate::faults;
use crate::files::{reason, sources, Read};
use crate::output::{make_folder, write_all};
use crate::progress::Progress;
use crate::stop::{Result, Stop};

pub fn pack(arguments: &Pack) -> Result<u8> {
    let sources = sources(std::slice::from_ref(&arguments.file))?;
    let read = Read::new(&sources, &Progress::start())?;
    let document = read.document();
    let pattern = match (&arguments.pattern, &document.patterns[..]) {
        (Some(name), _) => {
            let chosen = read.explain(rizhavaan_core::chosen(document, std::slice::from_ref(name)))?;
            chosen.first().copied()
        }
        (None, []) => None,
        (None, [one]) => Some(one),
        (None, several) => {
            let names: Vec<&str> = several.iter().map(|p| p.title()).collect();
            let reason = format!("q.bin holds one pattern; choose it with --pattern: {}", names.join(", "));
            return Err(Stop::Because(reason));
        }
    };
    let of_pattern = pattern.and_then(|p| p.fault.as_ref().or(p.plan_fault.as_ref()));
    for fault in document.changes_fault.iter().chain(of_pattern) {
        faults::show_each(&read.reading.texts, &[fault]);
    }
    let beside = arguments.file.parent().unwrap_or(Path::new(""));
    let folder = arguments.folder.as_deref().unwrap_or(beside);
    let packed = Packed::of(document, pattern);
    make_folder(folder)?;
    for (name, bytes) in Packed::FILES.iter().zip(packed.to_files()) {
        if let Some(bytes) = bytes {
            let path = folder.join(name);
            write_all(Some(&path), &bytes)?;
        }
    }
    let names = folder.join(Packed::NAMES);
    match names_file::text(document, pattern) {
        Some(text) => write_all(Some(&names), text.as_bytes())?,
        // Names of other files would be wrong ones.
        None => match fs::remove_file(&names) {
            Err(e) if e.kind() != ErrorKind::NotFound => {
                return Err(Stop::Because(format!("{}: {}", names.display(), reason(&e))))
            }
            _ => {}
        },
    }
    Ok(0)
}

pub fn run_unpack(arguments: &Unpack) -> Result<u8> {
    let text = unpack(&arguments.folder)?;
    write_all(arguments.output.as_deref(), text.as_bytes())?;
    Ok(0)
}

/// The packed files of a folder as a text.
pub fn unpack(folder: &Path) -> Result<String> {
    let [g, q, p, c] = Packed::FILES;
    let files: Files = [read(folder, g)?, read(folder, q)?, read(folder, p)?, read(folder, c)?];
    if files.iter().all(Option::is_none) {
        return Err(Stop::Because(format!("{}: no {g}, {q}, {p} or {c}", folder.display())));
    }
    let names = read(folder, Packed::NAMES)?;
    let packed = Packed::from_files(files)
        .map_err(|(name, fault)| Stop::Because(format!("{}: {fault}", folder.join(name).display())))?;
    packed
        .to_text(names.as_deref())
        .map_err(|reason| Stop::Because(format!("{}: {reason}", folder.join(Packed::NAMES).display())))
}

/// The bytes of a file, or nothing if there is no such file.
fn read(folder: &Path, name: &str) -> Result<Option<Vec<u8>>> {
    let path = folder.join(name);
    match fs::read(&path) {
        Ok(bytes) => Ok(Some(bytes)),
        Err(e) if e.kind() == ErrorKind::NotFound => Ok(None),
        Err(e) => Err(Stop::Because(format!("{}: {}", path.display(), reason(&e)))),
    }
}
