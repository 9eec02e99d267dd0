//! Every example's text packs to its files, which unpack to a text that packs to them again; and
//! whatever becomes of texts and files, nothing panics.

mod common;

use std::fs;
use std::path::{Path, PathBuf};

use common::parse;
use rizhavaan_core::packing::{Files, Packed};

fn examples() -> Vec<PathBuf> {
    let folder = Path::new(env!("CARGO_MANIFEST_DIR")).join("../examples");
    let entries = fs::read_dir(folder).unwrap().map(|e| e.unwrap().path());
    entries.filter(|path| path.join("g.bin").is_file()).collect()
}

fn text(example: &Path) -> Vec<u8> {
    fs::read(example.join("hang.txt")).unwrap()
}

/// The plan may be left to the engine, and few have changes.
fn files(example: &Path) -> Files {
    let files = Packed::FILES.map(|name| fs::read(example.join(name)).ok());
    assert!(files[0].is_some() && files[1].is_some(), "{example:?}");
    files
}

#[test]
fn examples_round_trip() {
    let examples = examples();
    assert!(examples.len() >= 8);
    for example in examples {
        let packed = parse(&text(&example)).unwrap().hang;
        assert_eq!(packed.to_files(), files(&example), "{example:?}");
        let unpacked = Packed::from_files(files(&example)).unwrap();
        assert_eq!(unpacked, packed);
        let again = parse(unpacked.clone().to_text(None).unwrap().as_bytes()).unwrap();
        assert_eq!(again.hang, packed);
    }
}

#[test]
fn the_refused_example_is_warned_of() {
    for example in examples() {
        let expected = fs::read_to_string(example.join("expected.txt")).unwrap();
        let warning = parse(&text(&example)).unwrap().warning;
        match expected.trim_end().strip_prefix("refused ") {
            Some(refusal) => assert!(warning.unwrap().reason.ends_with(&format!("with {refusal}"))),
            None => assert_eq!(warning, None),
        }
    }
}

/// The ranges in the table of the lapsed motors, each in place of the one in the text.
#[test]
fn the_ranges_of_the_lapsed_motors() {
    let examples = examples();
    let named = |path: &&PathBuf| path.ends_with("lapsed-motors");
    let folder = examples.iter().find(named).unwrap();
    let text = String::from_utf8(text(folder)).unwrap();
    let readme = fs::read_to_string(folder.join("README.md")).unwrap();
    let ranges: Vec<(u32, u32)> = readme
        .lines()
        .filter_map(|line| line.strip_prefix("| `inspected ")?.split('`').next())
        .map(|range| {
            let text = text.replace("inspected ..2025-06-30", &format!("inspected {range}"));
            let query = parse(text.as_bytes()).unwrap().hang.query.unwrap();
            let days = query.vertices[2].days;
            (days.first.0, days.last.0)
        })
        .collect();
    assert_eq!(ranges, [(0, 9_312), (1, 9_312), (0, 0), (9_313, 65_535)]);
}

/// The pairs in the table of the equal slings, each line's in place of those in the text.
#[test]
fn the_pairs_of_the_equal_slings() {
    let examples = examples();
    let named = |path: &&PathBuf| path.ends_with("equal-slings");
    let folder = examples.iter().find(named).unwrap();
    let text = String::from_utf8(text(folder)).unwrap();
    let readme = fs::read_to_string(folder.join("README.md")).unwrap();
    let is_pair = |line: &&str| line.contains(" < ");
    let others: Vec<&str> = text.lines().filter(|line| !is_pair(line)).collect();
    assert_eq!(text.lines().filter(is_pair).count(), 2);
    let table = readme.lines().filter(|line| line.starts_with("| none") || line.starts_with("| `"));
    let read: Vec<(Vec<(u32, u32)>, bool)> = table
        .map(|line| {
            let cell = line.split('|').nth(1).unwrap();
            let pairs: Vec<&str> = cell.split('`').filter(is_pair).collect();
            let text = others.join("\n").replace("[plan]", &(pairs.join("\n") + "\n[plan]"));
            let parsed = parse(text.as_bytes()).unwrap();
            let pairs = parsed.hang.query.unwrap().pairs;
            let warned = parsed.warning.is_some();
            (pairs.iter().map(|p| (p.low, p.high)).collect(), warned)
        })
        .collect();
    let expected: [(&[(u32, u32)], bool); 4] =
        [(&[], false), (&[(0, 1)], false), (&[(0, 1), (1, 2)], false), (&[(0, 1), (1, 0)], true)];
    let expected = expected.map(|(pairs, warned)| (pairs.to_vec(), warned));
    assert_eq!(read, expected);
}

/// A stream of numbers that look random and are the same in every run.
struct Numbers(u64);

impl Numbers {
    fn below(&mut self, bound: usize) -> usize {
        self.0 = self.0.wrapping_mul(6_364_136_223_846_793_005).wrapping_add(1);
        (self.0 >> 33) as usize % bound
    }

    /// Sets, drops or repeats a byte.
    fn damage(&mut self, bytes: &mut Vec<u8>) {
        let at = self.below(bytes.len());
        match self.below(4) {
            0 => bytes.truncate(at),
            1 => drop(bytes.remove(at)),
            2 => bytes.insert(at, bytes[at]),
            _ => bytes[at] ^= 1 << self.below(8),
        }
    }
}

#[test]
fn damaged_texts_do_not_panic() {
    let mut numbers = Numbers(1);
    for example in examples() {
        let whole = text(&example);
        for _ in 0..2_000 {
            let mut text = whole.clone();
            numbers.damage(&mut text);
            if let Ok(parsed) = parse(&text) {
                let files = parsed.hang.to_files();
                assert_eq!(Packed::from_files(files), Ok(parsed.hang));
            }
        }
    }
}

#[test]
fn damaged_files_are_refused_or_come_back() {
    let mut numbers = Numbers(2);
    for example in examples() {
        let whole = files(&example);
        for _ in 0..2_000 {
            let mut files = whole.clone();
            if let Some(bytes) = &mut files[numbers.below(4)] {
                numbers.damage(bytes);
            }
            if let Ok(hang) = Packed::from_files(files.clone()) {
                assert_eq!(hang.to_files(), files);
                let parsed = parse(hang.clone().to_text(None).unwrap().as_bytes()).unwrap();
                assert_eq!(parsed.hang, hang);
            }
        }
    }
}
