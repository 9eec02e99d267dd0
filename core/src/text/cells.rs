//! Where the cells of a table stand, and whether its quotes close.

/// The first quotation mark that RFC 4180 does not allow: its place, and why.
pub fn broken_quote(source: &str, begin: usize, separator: u8) -> Option<(usize, usize, &'static str)> {
    let bytes = source.as_bytes();
    if !bytes[begin..].contains(&b'"') {
        return None;
    }
    let mut at = begin;
    while at < bytes.len() {
        // A cell begins here.
        if bytes[at] != b'"' {
            while at < bytes.len() && bytes[at] != separator && bytes[at] != b'\n' {
                if bytes[at] == b'"' {
                    return Some((
                        at,
                        at + 1,
                        "a cell with a quotation mark stands in quotes, and the mark is written twice",
                    ));
                }
                at += 1;
            }
            at += 1;
            continue;
        }
        let open = at;
        at = match closing(bytes, at + 1) {
            Some(close) => close + 1,
            None => return Some((open, open + 1, "the quotation mark is not closed")),
        };
        while at < bytes.len() && bytes[at] == b'\r' {
            at += 1;
        }
        if at < bytes.len() && bytes[at] != separator && bytes[at] != b'\n' {
            return Some((at, at + 1, "the cell goes on after its quotes"));
        }
        at += 1;
    }
    None
}

/// The mark that closes what begins at a place; two marks are one that does not.
fn closing(bytes: &[u8], mut at: usize) -> Option<usize> {
    while at < bytes.len() {
        if bytes[at] == b'"' {
            if bytes.get(at + 1) != Some(&b'"') {
                return Some(at);
            }
            at += 1;
        }
        at += 1;
    }
    None
}

/// The place of a cell of the record that begins at a byte, or the record's end where it has none such.
pub fn span(source: &str, start: usize, separator: u8, cell: usize) -> (usize, usize) {
    let bytes = source.as_bytes();
    let mut at = start;
    // Blank lines stand before a record.
    while at < bytes.len() && (bytes[at] == b'\n' || bytes[at] == b'\r') {
        at += 1;
    }
    for i in 0.. {
        let begin = at;
        if at < bytes.len() && bytes[at] == b'"' {
            at = closing(bytes, at + 1).map_or(bytes.len(), |close| close + 1);
        }
        while at < bytes.len() && bytes[at] != separator && bytes[at] != b'\n' && bytes[at] != b'\r' {
            at += 1;
        }
        if i == cell || at >= bytes.len() || bytes[at] != separator {
            return (begin, at);
        }
        at += 1;
    }
    (start, start)
}

#[cfg(test)]
mod tests {
    use super::*;

    #[test]
    fn quotes() {
        for good in ["", "a,b\n", "\"a,\"\"b\"\"\nc\",d\r\n\"\"", "a,\"b\"\r\n"] {
            assert_eq!(broken_quote(good, 0, b','), None, "{good}");
        }
        for bad in ["a,\"b\n", "a\"b", "\"a\"b,c", "\"a\"\""] {
            assert!(broken_quote(bad, 0, b',').is_some(), "{bad}");
        }
    }

    #[test]
    fn cells_of_a_record() {
        let source = "h\n\"a;b\"\"\";c;\r\nx";
        let cell = |i| {
            let (start, end) = span(source, 2, b';', i);
            &source[start..end]
        };
        assert_eq!([cell(0), cell(1), cell(2), cell(3)], ["\"a;b\"\"\"", "c", "", ""]);
    }
}
