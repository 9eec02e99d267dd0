//! `rizhavaan import` and `export`.

use std::path::Path;

use rizhavaan_core::{tables, write};

use crate::args::{Export, Import};
use crate::files::{sources, Read};
use crate::find::show_summary;
use crate::output::{make_folder, write_all};
use crate::progress::Progress;
use crate::stop::{Result, Stop};

pub fn import(arguments: &Import) -> Result<u8> {
    let sources = sources(&arguments.files.files)?;
    let read = Read::new(&sources, &Progress::start())?;
    show_summary(read.document());
    write_all(arguments.output.as_deref(), write::document(read.document()).as_bytes())?;
    Ok(0)
}

pub fn export(arguments: &Export) -> Result<u8> {
    let files = &arguments.files.files;
    let sources = sources(files)?;
    let read = Read::new(&sources, &Progress::start())?;
    let document = read.document();
    let Some(hang) = &document.hang else {
        return Err(Stop::Because("there is no hang: no [graph] and no table of items".into()));
    };
    let beside = if files[0].is_dir() { files[0].as_path() } else { files[0].parent().unwrap_or(Path::new("")) };
    let folder = arguments.output.as_deref().unwrap_or(beside);
    make_folder(folder)?;
    for (name, table) in tables::FILES.iter().zip(tables::tables(document, hang)) {
        write_all(Some(&folder.join(name)), &table)?;
    }
    Ok(0)
}
