//! The header for C has the wrapper's numbers: the refusals, each by its name, and the limits.
use rizhavaan::{
    Refusal, MAX_DRAWN_BYTES, MAX_OPERATORS, MAX_ORDERING_VERTICES, MAX_ORDERING_WORDS, MAX_WORDS, PAGE_BYTES,
};
use std::collections::BTreeMap;

const HEADER: &str = include_str!("../crates/rizhavaan/include/rizhavaan.h");

/// A name as C writes it: GraphShort is GRAPH_SHORT.
fn in_c(name: &str) -> String {
    let mut words = String::new();
    for letter in name.chars() {
        if letter.is_uppercase() && !words.is_empty() {
            words.push('_');
        }
        words.push(letter.to_ascii_uppercase());
    }
    words
}

/// A line `RIZHAVAAN_NAME = NUMBER`, with what may follow it.
fn enumerator(line: &str) -> Option<(String, u32)> {
    let (name, rest) = line.trim().strip_prefix("RIZHAVAAN_")?.split_once(" = ")?;
    let digits: String = rest.chars().take_while(char::is_ascii_digit).collect();
    Some((name.to_string(), digits.parse().ok()?))
}

#[test]
fn every_refusal() {
    let listed: BTreeMap<String, u32> = HEADER.lines().filter_map(enumerator).collect();
    let mut wanted: BTreeMap<String, u32> =
        Refusal::ALL.iter().map(|refusal| (in_c(&format!("{refusal:?}")), refusal.number())).collect();
    wanted.insert("ACCEPTED".to_string(), 0);
    assert_eq!(listed, wanted);
}

#[test]
fn every_limit() {
    let limits = [
        ("MAX_OPERATORS", MAX_OPERATORS),
        ("MAX_DRAWN_BYTES", MAX_DRAWN_BYTES),
        ("MAX_ORDERING_VERTICES", MAX_ORDERING_VERTICES),
        ("MAX_ORDERING_WORDS", MAX_ORDERING_WORDS),
        ("MAX_WORDS", MAX_WORDS),
        ("PAGE_BYTES", PAGE_BYTES),
    ];
    for (name, number) in limits {
        let line = format!("#define RIZHAVAAN_{name} {number}");
        assert!(HEADER.lines().any(|found| found == line), "{line}");
    }
}
