//! Damaged texts and tables: each has an answer or errors by line, and none panics.

mod common;
#[path = "../src/engine.rs"]
mod engine;

use std::fs;
use std::time::{Duration, Instant};

use common::{examples, Numbers};
use engine::Library;
use rizhavaan_core::{chosen, explain, picture, read, sql, tables, verify, why, write, Loaded, Options, Source};

/// Files that are read as one text: those of an example, or tables.
fn originals() -> Vec<Vec<Source>> {
    let mut all = Vec::new();
    for example in examples() {
        let mut files: Vec<_> = fs::read_dir(&example).unwrap().map(|e| e.unwrap().path()).collect();
        files.retain(|f| f.extension().map_or(false, |e| e == "txt" || e == "csv") && !f.ends_with("expected.txt"));
        files.sort();
        let texts: Vec<Source> = files
            .iter()
            .filter(|f| f.extension().map_or(false, |e| e == "txt"))
            .map(|f| Source::new(f.file_name().unwrap().to_str().unwrap(), fs::read(f).unwrap()))
            .collect();
        let with_tables: Vec<Source> = files
            .iter()
            .filter(|f| !f.ends_with("hang.txt"))
            .map(|f| Source::new(f.file_name().unwrap().to_str().unwrap(), fs::read(f).unwrap()))
            .collect();
        all.push(texts);
        if with_tables.iter().any(Source::is_table) {
            all.push(with_tables);
        }
    }
    all
}

/// Sets, drops, repeats, moves or mixes bytes.
fn damage(r: &mut Numbers, bytes: &mut Vec<u8>) {
    if bytes.is_empty() {
        bytes.push(r.below(256) as u8);
        return;
    }
    let at = r.below(bytes.len());
    let end = (at + 1 + r.below(20)).min(bytes.len());
    match r.below(12) {
        9 | 10 => {
            let mut lines: Vec<&[u8]> = bytes.split_inclusive(|&b| b == b'\n').collect();
            let line = lines.remove(r.below(lines.len()));
            if r.below(2) == 0 {
                lines.insert(r.below(lines.len() + 1), line);
            }
            *bytes = lines.concat();
        }
        11 => {
            let digits: Vec<usize> = (0..bytes.len()).filter(|&i| bytes[i].is_ascii_digit()).collect();
            if !digits.is_empty() {
                bytes[digits[r.below(digits.len())]] = b'0' + r.below(10) as u8;
            }
        }
        0 => bytes.truncate(at),
        1 => drop(bytes.remove(at)),
        2 => bytes.insert(at, bytes[at]),
        3 => bytes[at] ^= 1 << r.below(8),
        4 => drop(bytes.drain(at..end)),
        5 => {
            let part = bytes[at..end].to_vec();
            let to = r.below(bytes.len());
            bytes.splice(to..to, part);
        }
        6 => {
            let words: [&[u8]; 12] = [
                b"\"",
                b"->",
                b" -any-> ",
                b"[query x]\n",
                b"\n",
                b",",
                b"#",
                b": ",
                b"expect 0\n",
                b"\xff",
                b"vertices 9999 ",
                b"99999999999",
            ];
            let word = words[r.below(words.len())].to_vec();
            bytes.splice(at..at, word);
        }
        7 => {
            let lines: Vec<&[u8]> = bytes.split_inclusive(|&b| b == b'\n').collect();
            let line = lines[r.below(lines.len())].to_vec();
            bytes.splice(at..at, line);
        }
        _ => bytes[at] = r.below(256) as u8,
    }
}

fn sources(r: &mut Numbers, originals: &[Vec<Source>]) -> Vec<Source> {
    if r.below(10) == 0 {
        let bytes =
            |r: &mut Numbers, length: usize| -> Vec<u8> { (0..r.below(length)).map(|_| r.below(256) as u8).collect() };
        let names = ["noise.txt", "noise.csv"];
        return vec![Source::new(names[r.below(2)], bytes(r, 400))];
    }
    let mut sources = originals[r.below(originals.len())].clone();
    for _ in 0..1 + r.below(3) {
        let i = r.below(sources.len());
        damage(r, &mut sources[i].bytes);
    }
    sources
}

/// Reads, finds and writes all that there is; an answer packs and unpacks to what was read.
fn go_through(sources: &[Source]) -> bool {
    let reading = read(sources);
    for fault in &reading.faults.faults {
        let at = fault.place.locate(&reading.texts);
        assert!(at.line >= 1 && at.column >= 1 && !fault.reason.is_empty());
    }
    let Some(document) = &reading.document else {
        assert!(reading.faults.errors > 0);
        return false;
    };
    let text = write::document(document);
    let again = [Source::new("again.txt", text.as_str())];
    let again = read(&again);
    let again = again.document.unwrap_or_else(|| panic!("what was written is not read:\n{text}"));
    assert_eq!(
        again.hang.as_ref().map(|h| (&h.graph, &h.names)),
        document.hang.as_ref().map(|h| (&h.graph, &h.names)),
        "{text}"
    );
    let queries =
        |d: &rizhavaan_core::Document| d.patterns.iter().map(|p| (p.query.clone(), p.plan.clone())).collect::<Vec<_>>();
    assert_eq!(queries(&again), queries(document), "{text}");
    let Ok(loaded) = Loaded::load(&Library, document) else { return true };
    tables::tables(document, loaded.hang);
    let options = Options { memory: 16_000_000, ..Options::default() };
    for pattern in chosen(document, &[]).unwrap_or_default() {
        if let Ok(found) = loaded.find(&Library, pattern, &options) {
            explain::explain(&Library, &loaded, &found, options.memory).unwrap();
            picture::dot(document, loaded.hang, Some(&found), false);
            if found.places() == 0 {
                assert!(!why::why(&loaded, &found).is_empty());
            }
        }
        if document.hang.as_ref().map_or(0, |h| h.graph.vertices.len()) < 1_000 {
            sql::sql(document, loaded.hang, pattern, &pattern.query);
        }
        assert!(verify::query(&pattern.query.to_bytes(), &pattern.query).is_ok() || pattern.fault.is_some());
    }
    if let Ok(changed) = loaded.changed(&Library) {
        assert_eq!(changed.edges().len(), changed.graph().edges.len());
    }
    true
}

/// Goes through damaged files; answers how many had an answer, and the longest time.
fn try_damaged(seed: u64, count: usize) -> (usize, Duration) {
    let originals = originals();
    let mut r = Numbers(seed);
    let (mut read, mut longest) = (0, Duration::ZERO);
    for _ in 0..count {
        let sources = sources(&mut r, &originals);
        let start = Instant::now();
        read += usize::from(go_through(&sources));
        longest = longest.max(start.elapsed());
    }
    (read, longest)
}

#[test]
fn a_sample_of_damaged_files() {
    let (read, _) = try_damaged(1, 1_000);
    assert!((100..900).contains(&read), "{read} of 1000 were read");
}

/// `cargo test --release -- --ignored --nocapture` prints the longest time.
#[test]
#[ignore]
fn many_damaged_files() {
    let (read, longest) = try_damaged(2, 10_000);
    println!("{read} of 10000 had an answer, the others errors by line, the slowest in {:.0} ms", longest.as_secs_f64() * 1e3);
}
