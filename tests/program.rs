//! The program `trace`: all that it prints, on the examples and at its bounds.
use judge::graph::Graph;
use judge::hangs::{extend, files, join, scan, sets, sized, stretched, with, worked, WORKED};
use judge::plan::{self, Operator};
use judge::program::{answer, printed, run, run_places, run_reading, unbounded, Files, Place, FILES, MAX_BYTES};
use judge::query::Query;
use judge::random::each;
use judge::worked::{bundle, diamond, doubled, g, graph, k, triangle, two_bundles};
use std::collections::BTreeSet;
use std::path::Path;
use Operator::{Extend, Join, Scan};

#[test]
fn the_examples() {
    let examples = Path::new(concat!(env!("CARGO_MANIFEST_DIR"), "/examples"));
    let mut count = 0;
    let entries = std::fs::read_dir(examples).unwrap().map(|entry| entry.unwrap().path());
    // Where there is no plan, the engine draws one, from Rust or C: the example `changed`, which tests/run runs.
    for folder in entries.filter(|path| path.join("p.bin").exists()) {
        let read = |name: &str| std::fs::read(folder.join(name)).unwrap_or_else(|e| panic!("{folder:?}, {name}: {e}"));
        let files = FILES.map(&read);
        let expected = String::from_utf8(read("expected.txt")).unwrap();
        assert_eq!(printed(&files), expected, "{folder:?}, by the judge");
        assert_eq!(run(&files), expected, "{folder:?}");
        count += 1;
    }
    assert!(count >= 7, "{count} examples");
}

/// The document's cases, with the cache on, and fields of one digit and of four, rows of two columns and of eight.
#[test]
fn the_worked_cases() {
    assert_eq!(run(&worked()), WORKED);
    let path = |n: usize| Query::plain(n, &(1..n).map(|v| (v - 1, v)).collect::<Vec<_>>());
    let deep = [Scan(2), Extend(0), Extend(3)];
    let bushy = [Scan(2), Extend(0), Scan(2), Extend(3), Join];
    let chain = [Scan(0), Extend(2), Extend(3), Extend(4), Extend(5), Extend(6), Extend(7)];
    let two = [Scan(0), Extend(2)];
    let line = graph(8, &(0..7).map(|v| (v, v + 1)).collect::<Vec<_>>());
    let cases: [(Files, &str); 9] = [
        (files(&g(), &triangle(), &[Scan(2), Extend(0)]), WORKED),
        (files(&g(), &triangle(), &[Scan(1), Extend(1)]), "matches 2 cost 18 build 0 probe 0\n0 1 2\n1 2 3\n"),
        (files(&g(), &diamond(), &deep), "matches 1 cost 17 build 0 probe 0\n0 1 2 3\n"),
        (files(&g(), &diamond(), &bushy), "matches 1 cost 26 build 2 probe 2\n0 1 2 3\n"),
        (files(&k(), &diamond(), &deep), "matches 2 cost 28 build 0 probe 0\n0 2 3 4\n1 2 3 4\n"),
        (files(&graph(1, &[(0, 0)]), &triangle(), &two), "matches 0 cost 0 build 0 probe 0\n"),
        (files(&graph(0, &[]), &triangle(), &two), "matches 0 cost 0 build 0 probe 0\n"),
        (files(&line, &path(8), &chain), "matches 1 cost 21 build 0 probe 0\n0 1 2 3 4 5 6 7\n"),
        (
            files(&graph(1_022, &[(1_021, 1_000)]), &path(2), &[Scan(0)]),
            "matches 1 cost 0 build 0 probe 0\n1021 1000\n",
        ),
    ];
    for (files, text) in cases {
        assert_eq!(run(&files), text);
    }
}

/// Edges of any label, worked by hand: a pair is one row and one neighbour however many labels join it, and the whole list is in the
/// cost. Each with the cache on.
#[test]
fn the_worked_cases_of_any_label() {
    let pair = Query::any(2, &[(0, 1)]);
    let path = Query::any(3, &[(0, 1), (1, 2)]);
    let triangle = Query::any(3, &[(0, 1), (0, 2), (1, 2)]);
    let fork = Query::any(3, &[(0, 1), (0, 2)]);
    let both = Query::new(vec![0; 2], vec![(0, 1, 0), (0, 1, 2)]);
    let extended = Query::new(vec![0; 3], vec![(0, 1, 1), (1, 2, 0), (1, 2, 3)]);
    let two = [Scan(0), Extend(2)];
    let join = [Scan(0), Scan(1), Join];
    let cases: [(Files, &str); 10] = [
        (files(&doubled(), &pair, &[Scan(0)]), "matches 5 cost 0 build 0 probe 0\n0 1\n0 2\n1 2\n1 3\n2 3\n"),
        (files(&doubled(), &triangle, &two), "matches 2 cost 18 build 0 probe 0\n0 1 2\n1 2 3\n"),
        (files(&doubled(), &path, &two), "matches 4 cost 4 build 0 probe 0\n0 1 2\n0 1 3\n0 2 3\n1 2 3\n"),
        (files(&doubled(), &path, &join), "matches 4 cost 0 build 5 probe 5\n0 1 2\n0 1 3\n0 2 3\n1 2 3\n"),
        (files(&doubled(), &both, &[Scan(0)]), "matches 3 cost 0 build 0 probe 0\n0 1\n1 2\n2 3\n"),
        (files(&doubled(), &both, &[Scan(1)]), "matches 3 cost 0 build 0 probe 0\n0 1\n1 2\n2 3\n"),
        (files(&doubled(), &extended, &two), "matches 1 cost 5 build 0 probe 0\n0 1 2\n"),
        (files(&bundle(), &fork, &two), "matches 0 cost 255 build 0 probe 0\n"),
        (files(&two_bundles(), &fork, &two), "matches 2 cost 510 build 0 probe 0\n0 1 2\n0 2 1\n"),
        (files(&graph(2, &[]), &pair, &[Scan(0)]), "matches 0 cost 0 build 0 probe 0\n"),
    ];
    for (files, text) in cases {
        assert_eq!(printed(&files), text, "by the judge");
        assert_eq!(run(&files), text);
    }
}

#[derive(Clone, Copy, Debug, PartialEq)]
enum Way {
    Good,
    Missing,
    Folder,
    Longest,
    Long,
}

/// Each file is as it should be, missing, a folder, of 8,192 bytes or of 8,193, in all 125 ways: the first long one is named and
/// nothing else is said; else the graph's refusal comes before the query's, and that before the plan's.
#[test]
fn every_file_missing_a_folder_or_at_its_longest() {
    use Way::{Folder, Good, Long, Longest, Missing};
    let good = worked();
    for i in 0..125 {
        let ways = [i / 25, i / 5 % 5, i % 5].map(|way| [Good, Missing, Folder, Longest, Long][way]);
        let place = |at: usize| match ways[at] {
            Good => Place::File(good[at].clone()),
            Missing => Place::Missing,
            Folder => Place::Folder,
            Longest => Place::File(stretched(&good[at], MAX_BYTES)),
            Long => Place::File(stretched(&good[at], MAX_BYTES + 1)),
        };
        let refusal = |at: usize| match ways[at] {
            Good | Long => None,
            Missing | Folder => Some([1, 6, 12][at]),
            Longest => Some([2, 7, 13][at]),
        };
        let expected = match (ways.iter().position(|&way| way == Long), (0..3).find_map(refusal)) {
            (Some(at), _) => format!("long {}\n", FILES[at]),
            (None, Some(refusal)) => format!("refused {refusal}\n"),
            (None, None) => WORKED.to_string(),
        };
        assert_eq!(run_places(&[0, 1, 2].map(place)), expected, "{ways:?}");
    }
}

/// Names that can't be opened, since they are links to nothing or to themselves, and files of no bytes and of bytes without end.
#[test]
fn links() {
    for (at, refusal) in [(0, 1), (1, 6), (2, 12)] {
        let link = |target: &'static str| {
            let mut places = worked().map(Place::File);
            places[at] = Place::Link(target);
            run_places(&places)
        };
        assert_eq!(link("nothing"), format!("refused {refusal}\n"), "{}", FILES[at]);
        assert_eq!(link(FILES[at]), format!("refused {refusal}\n"), "{}", FILES[at]);
        assert_eq!(link("/dev/null"), format!("refused {refusal}\n"), "{}", FILES[at]);
        assert_eq!(link("/dev/zero"), format!("long {}\n", FILES[at]));
    }
}

/// The longest file, of 5 + 4N + 5M bytes, and the largest store: 4N + 2M + 4 words, always an even number.
#[test]
fn the_largest_graphs() {
    let query = Query::new(vec![0; 2], vec![(0, 1, 5)]);
    for (n, m, bytes, words, rows) in [
        (338, 1_367, 8_192, 4_090, Some(273)),
        (343, 1_363, 8_192, 4_102, None),
        (341, 1_364, 8_189, 4_096, Some(272)),
        (342, 1_363, 8_188, 4_098, None),
        (1_023, 0, 4_097, 4_096, Some(0)),
        (1_024, 0, 4_101, 4_100, None),
    ] {
        let graph = sized(n, m);
        assert_eq!((graph.file().len(), graph.store_size()), (bytes, words));
        let files = files(&graph, &query, &[Scan(0)]);
        let text = run(&files);
        match rows {
            Some(rows) => assert!(text.starts_with(&format!("matches {rows} cost 0 build 0 probe 0\n")), "{text}"),
            None => assert_eq!(text, "refused 5\n"),
        }
        assert_eq!(text, printed(&files), "{n} vertices, {m} edges");
    }
}

/// Needs and rows of 2,048 words, which run, and of few words more. What fits neither is refused for the scratch.
#[test]
fn the_last_word_of_scratch_and_list() {
    for (files, need, words, refusal) in [
        (scan(1_024), 2, 2_048, 0),
        (scan(1_025), 2, 2_050, 21),
        (extend(31, 22), 2 + 3 + 22, 2_046, 0),
        (extend(23, 30), 2 + 3 + 30, 2_070, 21),
        (sets(507, 507), 2_048, 6, 0),
        (sets(507, 508), 2_049, 6, 20),
        (join(510, 2, 2), 2_047, 12, 0),
        (join(511, 2, 2), 2_050, 12, 20),
        (join(510, 31, 22), 2_047, 2_046, 0),
        (join(510, 30, 23), 2_047, 2_070, 21),
        (join(511, 30, 23), 2_050, 2_070, 20),
    ] {
        let (_, answer) = unbounded(&files).unwrap();
        assert_eq!((answer.need, answer.rows.len()), (need, words));
        let text = run(&files);
        match refusal {
            0 => assert!(text.starts_with(&format!("matches {} cost ", answer.count)), "{text}"),
            _ => assert_eq!(text, format!("refused {refusal}\n")),
        }
        assert_eq!(text, printed(&files));
    }
}

/// Operators on the way may have more rows than scratch and list have words: here 3,600 in the middle of the plan, and 59 at its end.
#[test]
fn many_rows_in_the_middle_of_a_plan() {
    let mut edges: Vec<(u16, u8, u16)> = (0..60).map(|i| (i, 1, 60)).chain((0..60).map(|i| (60, 2, 61 + i))).collect();
    edges.push((61, 3, 0));
    let query = Query::new(vec![0; 4], vec![(0, 1, 1), (1, 2, 2), (2, 3, 3)]);
    let files = files(&Graph::new(vec![0; 121], edges), &query, &[Scan(0), Extend(2), Extend(3)]);
    let (_, answer) = unbounded(&files).unwrap();
    let rows: Vec<u64> = answer.records.iter().map(|record| record.rows).collect();
    assert_eq!((rows, answer.need), (vec![60, 3_600, 59], 2 + (3 + 60) + (4 + 1)));
    assert_eq!(run(&files), printed(&files));
}

/// Files of any kind, valid and damaged, against the judge.
#[test]
fn random_files() {
    let (mut accepted, mut refusals) = (0, BTreeSet::new());
    each(0..1_500, |r| {
        let graph = Graph::random(r, 14);
        let query = Query::random(r, 5);
        let mut operators = plan::random(r, &query);
        if r.chance(1, 6) {
            plan::disturb(r, &query, &mut operators);
        }
        let mut files = files(&graph, &query, &operators);
        if r.chance(1, 3) {
            r.damage(&mut files[r.below(3)]);
        }
        let text = run(&files);
        assert_eq!(text, printed(&files), "{files:02x?}");
        match answer(&files) {
            Ok((_, answer)) => accepted += usize::from(answer.count > 0),
            Err(refusal) => drop(refusals.insert(refusal)),
        }
    });
    assert!(accepted > 150 && refusals.len() > 12, "{accepted} runs with rows; refused with {refusals:?}");
}

/// Reads that bring one byte each, or few, bring the whole file.
#[test]
fn short_reads() {
    let longest = files(&sized(338, 1_367), &Query::new(vec![0; 2], vec![(0, 1, 5)]), &[Scan(0)]);
    let long = with(2, stretched(&worked()[2], MAX_BYTES + 1));
    for most in ["1", "3", "1000", "4097", "8191", "8192"] {
        for files in [worked(), longest.clone(), long.clone()] {
            assert_eq!(run_reading(&files, &[("READ_AT_MOST", most)]), printed(&files), "{most} bytes a read");
        }
    }
}

/// A read that breaks off gives what a missing file gives, wherever it does: also after the last byte, and where the bytes that
/// came would be taken as a file.
#[test]
fn a_read_that_breaks_off() {
    for (at, refusal) in [(0, 1), (1, 6), (2, 12)] {
        let good = &worked()[at];
        let longer = stretched(good, good.len() + 1);
        for (after, file) in (0..=good.len()).map(|after| (after, good)).chain([(good.len(), &longer)]) {
            let variables = [("BROKEN_FILE", FILES[at]), ("BROKEN_AFTER", &after.to_string())];
            let text = run_reading(&with(at, file.clone()), &variables);
            assert_eq!(text, format!("refused {refusal}\n"), "{} after {after} bytes", FILES[at]);
        }
    }
}
