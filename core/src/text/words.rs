//! The words of a line, and the numbers among them.

use std::borrow::Cow;
use std::ops::RangeInclusive;

/// How a word is written.
#[derive(Clone, Copy, Debug, PartialEq, Eq)]
pub enum Form {
    /// Without quotes.
    Bare,
    /// In quotes, so that it is a name and nothing else.
    Quoted,
    /// A colon by itself, or at the end of a word.
    Colon,
    /// `-LABEL->`: the span is the label's.
    Arrow,
    /// `-"LABEL"->`.
    QuotedArrow,
}

/// A word of a text: bytes from `start` to `end` of it, without quotes and arrow.
#[derive(Clone, Copy, Debug, PartialEq, Eq)]
pub struct Word {
    pub form: Form,
    pub start: u32,
    pub end: u32,
}

impl Word {
    /// What the word says. A quotation mark within quotes is written twice.
    pub fn text<'t>(&self, source: &'t str) -> Cow<'t, str> {
        let raw = self.raw(source);
        match self.form {
            Form::Quoted | Form::QuotedArrow if raw.contains('"') => Cow::Owned(raw.replace("\"\"", "\"")),
            _ => Cow::Borrowed(raw),
        }
    }

    /// The bytes of the word as they stand.
    pub fn raw<'t>(&self, source: &'t str) -> &'t str {
        &source[self.start as usize..self.end as usize]
    }

    /// The word is this one, and not in quotes.
    pub fn is(&self, source: &str, word: &str) -> bool {
        self.form == Form::Bare && self.raw(source) == word
    }

    pub fn is_arrow(&self) -> bool {
        matches!(self.form, Form::Arrow | Form::QuotedArrow)
    }

    /// A word that can be a name.
    pub fn is_name(&self) -> bool {
        matches!(self.form, Form::Bare | Form::Quoted)
    }
}

/// A word that cannot be read: its first and last byte, and why.
pub type Broken = (u32, u32, &'static str);

/// Reads the words of `source[start..end]`, a line without its end, up to a comment. Answers where
/// the comment begins, if there is one.
pub fn split(source: &str, start: usize, end: usize, words: &mut Vec<Word>) -> Result<Option<usize>, Broken> {
    let bytes = source.as_bytes();
    words.clear();
    let mut at = start;
    while at < end {
        let byte = bytes[at];
        if byte == b' ' {
            at += 1;
            continue;
        }
        if byte == b'#' {
            return Ok(Some(at));
        }
        if let Some(blank) = blank_at(source, at, end) {
            at += blank;
            continue;
        }
        at = match byte {
            b'"' => quoted(source, at, end, words)?,
            b'-' if at + 1 < end && bytes[at + 1] == b'"' => quoted_arrow(source, at, end, words)?,
            _ => bare(source, at, end, words),
        };
    }
    Ok(None)
}

/// A byte of ASCII that is a blank.
#[inline]
fn is_blank(byte: u8) -> bool {
    matches!(byte, b' ' | 9..=13)
}

/// Bytes at which a bare word may end: blanks, the sign of a comment, and those of characters outside ASCII, which may be blanks.
static IS_STOP: [bool; 256] = stops();

const fn stops() -> [bool; 256] {
    let mut stops = [false; 256];
    let mut byte = 0;
    while byte < 256 {
        stops[byte] = byte >= 0x80 || byte == b'#' as usize || byte == b' ' as usize || (byte >= 9 && byte <= 13);
        byte += 1;
    }
    stops
}

/// How many bytes the blank at a place has, if there is one.
#[inline]
fn blank_at(source: &str, at: usize, end: usize) -> Option<usize> {
    let byte = source.as_bytes()[at];
    if byte < 0x80 {
        return is_blank(byte).then_some(1);
    }
    let c = source[at..end].chars().next()?;
    c.is_whitespace().then(|| c.len_utf8())
}

fn word(form: Form, start: usize, end: usize) -> Word {
    Word { form, start: start as u32, end: end as u32 }
}

fn bare(source: &str, start: usize, end: usize, words: &mut Vec<Word>) -> usize {
    let bytes = &source.as_bytes()[..end];
    let mut at = start;
    loop {
        at += bytes[at..].iter().position(|&byte| IS_STOP[usize::from(byte)]).unwrap_or(end - at);
        if at == end || bytes[at] < 0x80 || blank_at(source, at, end).is_some() {
            break;
        }
        at += source[at..end].chars().next().map_or(1, char::len_utf8);
    }
    let text = &source[start..at];
    if text.len() >= 3 && text.starts_with('-') && text.ends_with("->") {
        words.push(word(Form::Arrow, start + 1, at - 2));
        return at;
    }
    if text.ends_with(':') {
        if text.len() > 1 {
            words.push(word(Form::Bare, start, at - 1));
        }
        words.push(word(Form::Colon, at - 1, at));
        return at;
    }
    words.push(word(Form::Bare, start, at));
    at
}

/// The place of the quotation mark that ends what begins at `start`.
fn closing(source: &str, start: usize, end: usize) -> Result<usize, Broken> {
    let bytes = source.as_bytes();
    let mut at = start;
    while at < end {
        if bytes[at] == b'"' {
            if at + 1 < end && bytes[at + 1] == b'"' {
                at += 1;
            } else {
                return Ok(at);
            }
        }
        at += 1;
    }
    Err((start as u32 - 1, end as u32, "the quotation mark is not closed on this line"))
}

fn quoted(source: &str, start: usize, end: usize, words: &mut Vec<Word>) -> Result<usize, Broken> {
    let bytes = source.as_bytes();
    let close = closing(source, start + 1, end)?;
    words.push(word(Form::Quoted, start + 1, close));
    let mut at = close + 1;
    if at < end && bytes[at] == b':' {
        words.push(word(Form::Colon, at, at + 1));
        at += 1;
    }
    after(source, start, at, end)
}

fn quoted_arrow(source: &str, start: usize, end: usize, words: &mut Vec<Word>) -> Result<usize, Broken> {
    let close = closing(source, start + 2, end)?;
    if !source[close + 1..end].starts_with("->") {
        return Err((start as u32, close as u32 + 1, "after the quoted kind of an arrow stands '->'"));
    }
    words.push(word(Form::QuotedArrow, start + 2, close));
    after(source, start, close + 3, end)
}

/// A blank, a comment or the line's end stands at `at`.
fn after(source: &str, start: usize, at: usize, end: usize) -> Result<usize, Broken> {
    if at >= end || source.as_bytes()[at] == b'#' || blank_at(source, at, end).is_some() {
        return Ok(at);
    }
    let next = source[at..end].chars().next().map_or(1, char::len_utf8);
    Err((
        start as u32,
        (at + next) as u32,
        "a blank stands after what is in quotes; a quotation mark within is written twice",
    ))
}

#[inline]
pub fn is_number(word: &str) -> bool {
    !word.is_empty() && word.bytes().all(|b| b.is_ascii_digit())
}

/// The decimal number of a word, within a range.
pub fn number(what: &str, word: &str, range: RangeInclusive<u32>) -> Result<u32, String> {
    if !is_number(word) {
        return Err(format!("{what} '{word}' is no number"));
    }
    let value = word.parse().ok().filter(|v| range.contains(v));
    value.ok_or_else(|| {
        let (first, last) = (range.start(), range.end());
        format!("{what} {word} is not within {first} to {last}")
    })
}

/// A name as the text form has it: in quotes where it needs them.
pub fn quote(name: &str) -> Cow<'_, str> {
    if needs_quotes(name) {
        return Cow::Owned(format!("\"{}\"", name.replace('"', "\"\"")));
    }
    Cow::Borrowed(name)
}

/// Words that have a meaning where a name begins a line.
const NO_NAMES: [&str; 4] = ["vertex", "vertices", "expect", "<"];

/// Words that have a meaning where the name of a kind stands.
const NO_KINDS: [&str; 6] = ["label", "day", "inspected", "note", "any", "="];

/// The word begins a line of another meaning, where it is not in quotes.
pub fn is_reserved(word: &str) -> bool {
    NO_NAMES[..2].contains(&word) || word == "<"
}

fn needs_quotes(name: &str) -> bool {
    name.is_empty()
        || name.starts_with(&['"', '[', '-'][..])
        || name.ends_with(':')
        || name.contains("->")
        || name.contains(|c: char| c == '#' || c.is_whitespace())
        || NO_NAMES.contains(&name)
        || NO_KINDS.contains(&name)
}

/// Why a text is no name, if it is none.
pub fn name_fault(name: &str) -> Option<&'static str> {
    match () {
        _ if name.is_empty() => Some("a name has at least one letter, digit or sign"),
        _ if name.chars().any(char::is_control) => Some("a name is one line without control characters"),
        _ => None,
    }
}

#[cfg(test)]
mod tests {
    use super::*;

    fn words(line: &str) -> Vec<(Form, String)> {
        let mut words = Vec::new();
        split(line, 0, line.len(), &mut words).unwrap();
        words.iter().map(|w| (w.form, w.text(line).into_owned())).collect()
    }

    #[test]
    fn forms() {
        use Form::*;
        let line = "m1: \"Motor 3 (spare)\": -carries-> -\"a \"\"b\"\"\"-> libstdc++6#x";
        let expected = [
            (Bare, "m1"),
            (Colon, ":"),
            (Quoted, "Motor 3 (spare)"),
            (Colon, ":"),
            (Arrow, "carries"),
            (QuotedArrow, "a \"b\""),
            (Bare, "libstdc++6"),
        ];
        let expected: Vec<_> = expected.iter().map(|&(f, t)| (f, t.to_string())).collect();
        assert_eq!(words(line), expected);
        assert_eq!(words("- --> -> : Träger-Süd\u{a0}x").len(), 6);
    }

    #[test]
    fn what_is_quoted_comes_back() {
        for name in ["a b", "-x", "a->b", "x:", "a\"b", "\"", "vertex", "0ad", "a:b", "x#y", "<", "Träger-Süd", "any"]
        {
            let line = quote(name).into_owned();
            let mut read = Vec::new();
            split(&line, 0, line.len(), &mut read).unwrap();
            assert_eq!(read.len(), 1, "{line}");
            assert!(read[0].is_name());
            assert_eq!(read[0].text(&line), name);
        }
    }

    #[test]
    fn quotes_that_do_not_close() {
        for line in ["\"a", "-\"a", "-\"a\"", "\"a\"b", "\"a\" \"", "-\"a\"->b"] {
            assert!(split(line, 0, line.len(), &mut Vec::new()).is_err(), "{line}");
        }
    }
}
