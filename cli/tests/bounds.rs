//! Buffers that are set aside by a plan's bounds: where these are little, a run is made once.

#[path = "../src/engine.rs"]
mod engine;

use std::sync::Mutex;

use engine::Library;
use rizhavaan_core::engine::{Answer, Bounds, Counted, Engine, Lent, Refusal};
use rizhavaan_core::{read, Choice, Loaded, Options, Source};

/// The library, and the words of scratch and list that each run was lent.
#[derive(Default)]
struct Watched(Mutex<Vec<(usize, usize)>>);

impl Engine for Watched {
    fn load(&self, file: &[u8], store: &mut [u32]) -> Result<(u64, u64), Refusal> {
        Library.load(file, store)
    }

    fn apply_changes(&self, old: &[u32], changes: &[u8], store: &mut [u32]) -> Result<(u64, u64), Refusal> {
        Library.apply_changes(old, changes, store)
    }

    fn draw_plan(&self, store: &[u32], query: &[u8], plan: &mut [u8]) -> Result<u64, Refusal> {
        Library.draw_plan(store, query, plan)
    }

    fn bounds(&self, store: &[u32], query: &[u8], plan: &[u8]) -> Result<Bounds, Refusal> {
        Library.bounds(store, query, plan)
    }

    fn count(&self, store: &[u32], query: &[u8], plan: &[u8], scratch: &mut [u32]) -> Option<Result<Counted, Refusal>> {
        self.0.lock().unwrap().push((scratch.len(), 0));
        Library.count(store, query, plan, scratch)
    }

    fn run(&self, store: &[u32], query: &[u8], plan: &[u8], lent: Lent) -> Result<Answer, Refusal> {
        self.0.lock().unwrap().push((lent.scratch.len(), lent.list.len()));
        Library.run(store, query, plan, lent)
    }
}

/// All pairs of so many items, and a pattern.
fn dense(items: usize, pattern: &str) -> String {
    let mut text = format!("[graph]\nvertices {items}\n");
    for a in 0..items {
        for b in (0..items).filter(|&b| b != a) {
            text += &format!("{a} -1-> {b}\n");
        }
    }
    text + pattern
}

/// The places, and the words of each run.
fn find(text: &str, options: &Options) -> (usize, Vec<(usize, usize)>) {
    let sources = [Source::new("hang.txt", text)];
    let document = read(&sources).document.unwrap();
    let watched = Watched::default();
    let loaded = Loaded::load(&watched, &document).unwrap();
    let found = loaded.find(&watched, &document.patterns[0], options).unwrap();
    (found.places(), watched.0.into_inner().unwrap())
}

const EDGE: &str = "[query]\nvertices 2\n0 -1-> 1\n";
const PATH: &str = "[query]\nvertices 3\n0 -1-> 1\n1 -1-> 2\n";
const DRAWN: Options = Options { plan: Choice::Drawn, once: false, memory: 1 << 30, count_only: false };

/// What a run begins with where nothing more is known.
const FIRST: usize = 1 << 14;

#[test]
fn a_little_bound_is_set_aside_at_once() {
    let places = 150 * 149;
    let (found, runs) = find(&dense(150, EDGE), &DRAWN);
    assert_eq!(found, places);
    // Besides the first words there is room for the rows.
    assert_eq!(runs, [(FIRST + 2 * places, 2 * places)]);
    // So it is of a picked plan; what is only counted wants none.
    let (_, runs) = find(&dense(150, EDGE), &Options { plan: Choice::Picked, ..DRAWN });
    assert_eq!(runs, [(FIRST + 2 * places, 2 * places)]);
    let (found, runs) = find(&dense(150, EDGE), &Options { count_only: true, ..DRAWN });
    assert_eq!((found, &runs[..]), (places, &[(FIRST, 0)][..]));
}

/// A large bound is not: a run that does not fit is counted, and made again in just the words that it takes. Room for rows is for a set of the
/// longest list too, where the plan has an extend.
#[test]
fn a_large_bound_is_not() {
    let (found, runs) = find(&dense(90, PATH), &DRAWN);
    let words = 3 * 90 * 89 * 88;
    assert_eq!(3 * found, words);
    let (set, need) = (89, 2 + 3 + 89);
    // The rows are too many to have room besides.
    assert_eq!(runs, [(2 * FIRST + set, FIRST), (2 * FIRST + set, 0), (need, words)]);
}

/// Where the bounds are large, a list that a picked plan is thought to have, or that was counted, has room in the scratch.
#[test]
fn an_estimated_or_counted_list_has_room() {
    let mut text = String::from("[graph]\nvertices 2001\n");
    for i in 0..2_000 {
        text += &format!("2000 -1-> {i}\n{i} -1-> 2000\n{i} -1-> {}\n", (i + 1) % 2_000);
    }
    text += "[query]\nvertices 3\n0 -1-> 1\n0 -1-> 2\n1 -1-> 2\n";
    let sources = [Source::new("hang.txt", text.as_str())];
    let document = read(&sources).document.unwrap();
    let loaded = Loaded::load(&Library, &document).unwrap();
    let query = document.patterns[0].query.to_bytes();
    let picked = loaded.pick(&query, DRAWN.memory).unwrap();
    let bounds = Library.bounds(loaded.store(), &query, &picked.plan).unwrap();
    let (found, runs) = find(&text, &Options { plan: Choice::Picked, ..DRAWN });
    let (scratch, list) = (bounds.scratch_words as usize, picked.list as usize);
    assert!(found == 6_000 && list >= 18_000 && bounds.list_words > 1 << 20, "{found}, {list}, {bounds:?}");
    assert_eq!(runs, [(scratch.max(FIRST) + list + 2_000, list)]);
    let (_, runs) = find(&text, &DRAWN);
    assert_eq!(runs[..2], [(2 * FIRST + 2_000, FIRST), (2 * FIRST + 2_000, 0)]);
    let (room, need) = (18_000 + 2_000, 2..=scratch);
    assert!(runs.len() == 3 && need.contains(&(runs[2].0 - room)) && runs[2].1 == 18_000, "{runs:?}");
}

/// A join's scratch, whose build side is held whole, is set aside too, though its list is long.
#[test]
fn the_scratch_of_a_join() {
    let join = "[query]\nvertices 3\n0 -1-> 1\n1 -1-> 2\n[plan]\nscan 0\nscan 1\njoin\n";
    let (found, runs) = find(&dense(120, join), &Options { plan: Choice::Given, ..DRAWN });
    assert_eq!(found, 120 * 119 * 118);
    assert!(runs[0].0 > 3 * FIRST && runs[0].1 == FIRST, "{runs:?}");
    assert_eq!(runs.len(), 3, "the scratch fits at once: {runs:?}");

}

/// Where little memory is allowed, no more than a part of it is set aside at first, and never more than all of it.
#[test]
fn within_the_memory() {
    let options = Options { memory: 1_000_000, ..DRAWN };
    let (found, runs) = find(&dense(150, EDGE), &options);
    assert_eq!(found, 150 * 149);
    assert_eq!(runs[0].1, 1_000_000 / 32);
    assert!(runs.iter().all(|&(scratch, list)| 4 * (scratch + list) <= options.memory), "{runs:?}");
}

/// What does not fit is said by what it needs.
#[test]
fn what_is_needed_is_said() {
    let text = dense(150, EDGE);
    let sources = [Source::new("hang.txt", text.as_str())];
    let document = read(&sources).document.unwrap();
    let loaded = Loaded::load(&Library, &document).unwrap();
    let failure = loaded.find(&Library, &document.patterns[0], &Options { memory: 150_000, ..DRAWN }).unwrap_err();
    let sentence =
        "the run needs 178 KB of list and 8 bytes of scratch, which is more than the 150 KB it may take. Give it more";
    assert!(failure.to_string().starts_with(sentence), "{failure}");
    assert!(loaded
        .find(&Library, &document.patterns[0], &Options { memory: 4 * (2 + 2 * 150 * 149), ..DRAWN })
        .is_ok());
}
