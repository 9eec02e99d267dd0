//! An engine that answers wrongly is found out: no list, but a sentence.

use rizhavaan_core::engine::{Answer, Engine, Lent, Refusal};
use rizhavaan_core::{find_json, read, Choice, Failure, Loaded, Options, Origin, Source};

/// An engine with a list ready, whatever it is asked.
struct Ready {
    rows: Vec<u32>,
    width: usize,
    counts: (u64, u64),
    plan: Vec<u8>,
}

impl Engine for Ready {
    fn load(&self, _: &[u8], _: &mut [u32]) -> Result<(u64, u64), Refusal> {
        Ok(self.counts)
    }

    fn apply_changes(&self, _: &[u32], _: &[u8], _: &mut [u32]) -> Result<(u64, u64), Refusal> {
        Ok(self.counts)
    }

    fn draw_plan(&self, _: &[u32], _: &[u8], plan: &mut [u8]) -> Result<u64, Refusal> {
        plan[..self.plan.len()].copy_from_slice(&self.plan);
        Ok(self.plan.len() as u64)
    }

    fn run(&self, _: &[u32], _: &[u8], _: &[u8], lent: Lent) -> Result<Answer, Refusal> {
        lent.list[..self.rows.len()].copy_from_slice(&self.rows);
        Ok(Answer { rows: (self.rows.len() / self.width) as u64, ..Answer::default() })
    }
}

const TEXT: &str = "[graph]
p1: pin
p2: pin
m1: motor day 2026-04-20
m2: motor
m3: motor day 2026-04-20
p1 -carries-> m1
p1 -carries-> m2
p2 -holds-> m3
p1 -holds-> m3
[query]
p: pin
a: motor
b: motor inspected 2026-01-01..
p -carries-> a
p -any-> b
a < b
";

const DRAWN: Options = Options { plan: Choice::Drawn, once: false, memory: 1 << 30, count_only: false };

/// The rows of a list by a drawn plan, or the sentence in place of one.
fn answer(rows: &[u32], counts: (u64, u64), plan: &[u8]) -> Result<Vec<u32>, String> {
    let sources = [Source::new("hang.txt", TEXT)];
    let reading = read(&sources);
    let document = reading.document.unwrap();
    let engine = Ready { rows: rows.to_vec(), width: 3, counts, plan: plan.to_vec() };
    let loaded = Loaded::load(&engine, &document);
    let found = loaded
        .and_then(|loaded| loaded.find(&engine, &document.patterns[0], &DRAWN).map(|found| found.rows));
    found.map_err(|failure| match failure {
        Failure::Check(sentence) => sentence,
        other => panic!("{other}"),
    })
}

const PLAN: [u8; 3] = [0x10, 0x05, 0x00];

#[test]
fn right_rows_pass() {
    assert_eq!(answer(&[0, 2, 4, 0, 3, 4], (5, 4), &PLAN), Ok(vec![0, 2, 4, 0, 3, 4]));
}

#[test]
fn wrong_rows_are_found_out() {
    for (row, sentence) in [
        ([0, 2, 2], "the row (p1, m1, m1) has m1 twice"),
        ([2, 0, 4], "the row (m1, p1, m3) has m1, which does not fit p"),
        ([0, 2, 3], "the row (p1, m1, m2) has m2, which does not fit b"),
        ([1, 2, 4], "the row (p2, m1, m3) has not the connection p -carries-> a"),
        ([0, 4, 2], "the row (p1, m3, m1) has not the connection p -carries-> a"),
        ([0, 2, 9], "the row (p1, m1, 9) has number 9, which no item has"),
    ] {
        // Alone, and behind a row that shares some of it.
        assert_eq!(answer(&row, (5, 4), &PLAN), Err(sentence.to_string()));
        let two = [&[0, 2, 4][..], &row].concat();
        assert_eq!(answer(&two, (5, 4), &PLAN), Err(sentence.to_string()));
    }
}

#[test]
fn wrong_counts_and_plans_are_found_out() {
    let counts = answer(&[0, 2, 4], (5, 3), &PLAN).unwrap_err();
    assert_eq!(counts, "of 5 items and 4 connections the engine loaded (5, 3)");
    for plan in [&[0x10, 0x05, 0x01][..], &[0x10], &[0x10, 0x05, 0x00, 0x00]] {
        let sentence = answer(&[0, 2, 4], (5, 4), plan).unwrap_err();
        assert!(sentence.starts_with("the plan does not unpack"), "{sentence}");
    }
}

/// A pair that does not ascend, found out by itself.
#[test]
fn pairs_are_tested() {
    let text = "[graph]\nvertices 2\n0 -1-> 1\n1 -1-> 0\n[query]\nvertices 2\n0 -1-> 1\n0 < 1\n";
    let sources = [Source::new("hang.txt", text)];
    let document = read(&sources).document.unwrap();
    let engine = Ready { rows: vec![1, 0], width: 2, counts: (2, 2), plan: vec![0x08, 0x00] };
    let loaded = Loaded::load(&engine, &document).unwrap();
    let failure = loaded.find(&engine, &document.patterns[0], &DRAWN).unwrap_err();
    assert!(failure.to_string().contains("has not 0 < 1"), "{failure}");
    assert!(failure.to_string().starts_with("the check of the answer failed, so there is no list"), "{failure}");
}

/// An engine that refuses every plan but the one it draws.
struct Particular {
    ready: Ready,
    refusal: u32,
}

impl Engine for Particular {
    fn load(&self, file: &[u8], store: &mut [u32]) -> Result<(u64, u64), Refusal> {
        self.ready.load(file, store)
    }

    fn apply_changes(&self, old: &[u32], changes: &[u8], store: &mut [u32]) -> Result<(u64, u64), Refusal> {
        self.ready.apply_changes(old, changes, store)
    }

    fn draw_plan(&self, store: &[u32], query: &[u8], plan: &mut [u8]) -> Result<u64, Refusal> {
        self.ready.draw_plan(store, query, plan)
    }

    fn run(&self, store: &[u32], query: &[u8], plan: &[u8], lent: Lent) -> Result<Answer, Refusal> {
        match plan == self.ready.plan {
            true => self.ready.run(store, query, plan, lent),
            false => Err(Refusal(self.refusal)),
        }
    }
}

/// A picked plan that Check plan refuses is replaced by the drawn one, and the answer says so; other refusals stand.
#[test]
fn a_picked_plan_that_is_refused() {
    let sources = [Source::new("hang.txt", TEXT)];
    let document = read(&sources).document.unwrap();
    // Scan of the second edge, extend by a; of equal plans the first is picked, which begins with the first edge.
    let ready = || Ready { rows: vec![0, 2, 4], width: 3, counts: (5, 4), plan: vec![0x10, 0x14, 0x80] };
    let find = |refusal: u32, plan: Choice| {
        let engine = Particular { ready: ready(), refusal };
        let loaded = Loaded::load(&engine, &document).unwrap();
        let found = loaded.find(&engine, &document.patterns[0], &Options { plan, ..DRAWN });
        found.map(|found| (found.origin, found.rows)).map_err(|failure| failure.to_string())
    };
    let instead = |refusal| Ok((Origin::Instead(Some(Refusal(refusal))), vec![0, 2, 4]));
    for refusal in 12..=18 {
        assert_eq!(find(refusal, Choice::Picked), instead(refusal));
        assert_eq!(find(refusal, Choice::Best), instead(refusal));
        assert_eq!(find(refusal, Choice::Drawn), Ok((Origin::Drawn, vec![0, 2, 4])));
    }
    for refusal in [11, 19, 30] {
        assert!(find(refusal, Choice::Picked).unwrap_err().contains(&format!("refused the run with {refusal}")));
    }
    let engine = Particular { ready: ready(), refusal: 16 };
    let answer = find_json(&engine, &sources, &Options::default(), &[]);
    assert!(answer.contains(r#""planFrom":"drawn instead of picked""#), "{answer}");
}
