//! The files that are read as one text.

use crate::text::fault::{Fault, Faults, Place};

/// A file: its name as a reader is told it, and its bytes.
#[derive(Clone, Debug)]
pub struct Source {
    pub name: String,
    pub bytes: Vec<u8>,
}

impl Source {
    pub fn new(name: impl Into<String>, bytes: impl Into<Vec<u8>>) -> Source {
        Source { name: name.into(), bytes: bytes.into() }
    }

    /// The name ends as a table's does.
    pub fn is_table(&self) -> bool {
        let lower = self.name.to_ascii_lowercase();
        [".csv", ".tsv", ".tab"].iter().any(|end| lower.ends_with(end))
    }
}

/// A source that was decoded.
#[derive(Clone, Debug)]
pub struct Text<'s> {
    source: &'s Source,
    /// All of it, or as much as is UTF-8.
    text: &'s str,
}

const MARK: &str = "\u{feff}";

impl<'s> Text<'s> {
    /// Decodes the sources, and says which are not UTF-8 or too long.
    pub fn decode(sources: &'s [Source], faults: &mut Faults) -> Vec<Text<'s>> {
        let mut texts = Vec::with_capacity(sources.len());
        for (i, source) in sources.iter().enumerate() {
            let place = |start: usize, end: usize| Place { text: i as u32, start: start as u32, end: end as u32 };
            let text = match std::str::from_utf8(&source.bytes) {
                Ok(_) if source.bytes.len() >= Text::MOST => {
                    faults.push(Fault::error(place(0, 0), "the file has 2 GB or more"));
                    ""
                }
                Ok(text) => text,
                Err(e) => {
                    let end = e.valid_up_to();
                    let fault = Fault::error(place(end, end + 1), "the text is not UTF-8");
                    faults.push(fault.help("save the file as UTF-8"));
                    std::str::from_utf8(&source.bytes[..end]).unwrap_or_default()
                }
            };
            texts.push(Text { source, text });
        }
        texts
    }

    /// Places are kept in 32 bits.
    const MOST: usize = 1 << 31;

    pub fn name(&self) -> &'s str {
        &self.source.name
    }

    pub fn text(&self) -> &'s str {
        self.text
    }

    pub fn is_table(&self) -> bool {
        self.source.is_table()
    }

    /// Where the text begins: after a byte order mark.
    pub fn begin(&self) -> usize {
        if self.text.starts_with(MARK) {
            MARK.len()
        } else {
            0
        }
    }
}
