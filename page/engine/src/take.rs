//! `sheets`, `csv` and `text_of`: what a crew takes along.

use rizhavaan_core::{export, write, Loaded};

use crate::call::{Answer, Call, No, OrNo};
use crate::library::Library;

pub fn sheets(call: &Call) -> Answer {
    let options = call.options(false)?;
    call.with_document(|answer, reading, document| {
        let pattern = call.pattern(document, reading)?;
        let loaded = reading.or_no(Loaded::load(&Library, document))?;
        let found = reading.or_no(loaded.find(&Library, pattern, &options))?;
        let mut pages = Vec::new();
        loop {
            let (bytes, count) = reading.or_no(found.page(&Library, pages.len() as u64 + 1))?;
            pages.push(String::from_utf8_lossy(&bytes).into_owned());
            if pages.len() as u64 == count {
                break;
            }
        }
        answer.put("places", &found.places());
        answer.put("pages", &pages);
        answer.put("key", &export::key(&loaded, &found));
        Ok(())
    })
}

pub fn csv(call: &Call) -> Answer {
    let options = call.options(false)?;
    call.with_document(|answer, reading, document| {
        let pattern = call.pattern(document, reading)?;
        let loaded = reading.or_no(Loaded::load(&Library, document))?;
        let found = reading.or_no(loaded.find(&Library, pattern, &options))?;
        let mut bytes = Vec::new();
        export::csv(&mut bytes, &loaded, &found).map_err(|e| No::because(e.to_string()))?;
        answer.put("places", &found.places());
        answer.put("text", &String::from_utf8_lossy(&bytes));
        Ok(())
    })
}

pub fn text_of(call: &Call) -> Answer {
    call.with_document(|answer, _, document| {
        answer.put("text", &write::document(document));
        Ok(())
    })
}
