//! The safe wrapper: what it hands over, what it hands back, and the worked cases of the document.
use judge::graph::Graph;
use judge::plan::{self, Operator};
use judge::query::Query;
use judge::worked::{diamond, doubled, g, graph, k, triangle};
use rizhavaan::{Buffers, Cache, Record, Refusal, Store, Work};
use Operator::{Extend, Join, Scan};

/// Rows, cost, build rows, probe rows.
type Answer = (Vec<Vec<u32>>, u64, u64, u64);

fn run(graph: &Graph, query: &Query, operators: &[Operator], cache: Cache) -> Answer {
    let store = Store::load(&graph.file()).unwrap();
    let mut buffers = Buffers::new();
    let plan = plan::file(operators);
    let m = store.run_growing(&query.file(), &plan, cache, &mut buffers).unwrap();
    (m.rows().map(<[u32]>::to_vec).collect(), m.cost, m.build, m.probe)
}

#[test]
fn the_worked_files() {
    let hex = |text: &str| -> Vec<u8> {
        let digits: Vec<u8> =
            text.bytes().filter(|b| *b != b' ').map(|b| (b as char).to_digit(16).unwrap() as u8).collect();
        digits.chunks(2).map(|pair| pair[0] * 16 + pair[1]).collect()
    };
    let file =
        "0004 00005 00000000 00000000 00000000 00000000 0000010001 0000010002 0001010002 0001010003 0002010003 0";
    assert_eq!(g().file(), hex(file));
    let file = "31 80 00 00 00 7f ff 80 00 00 00 7f ff 80 00 00 00 7f ff 82 02 10 09 40 20";
    assert_eq!(triangle().file(), hex(file));
    assert_eq!(plan::file(&[Scan(0), Extend(2)]), hex("10 05 00"));
}

#[test]
fn the_worked_cases() {
    let on = Cache::On;
    let rows = vec![vec![0, 1, 2], vec![1, 2, 3]];
    assert_eq!(run(&g(), &triangle(), &[Scan(0), Extend(2)], on), (rows.clone(), 13, 0, 0));
    assert_eq!(run(&g(), &triangle(), &[Scan(2), Extend(0)], on), (rows.clone(), 13, 0, 0));
    assert_eq!(run(&g(), &triangle(), &[Scan(1), Extend(1)], on), (rows, 18, 0, 0));
    assert_eq!(run(&g(), &diamond(), &[Scan(2), Extend(0), Extend(3)], on), (vec![vec![0, 1, 2, 3]], 17, 0, 0));
    let bushy = [Scan(2), Extend(0), Scan(2), Extend(3), Join];
    assert_eq!(run(&g(), &diamond(), &bushy, on), (vec![vec![0, 1, 2, 3]], 26, 2, 2));
    let rows = vec![vec![0, 2, 3, 4], vec![1, 2, 3, 4]];
    let deep = [Scan(2), Extend(0), Extend(3)];
    assert_eq!(run(&k(), &diamond(), &deep, Cache::Off), (rows.clone(), 31, 0, 0));
    assert_eq!(run(&k(), &diamond(), &deep, on), (rows, 28, 0, 0));
    assert_eq!(run(&graph(1, &[(0, 0)]), &triangle(), &[Scan(0), Extend(2)], on), (vec![], 0, 0, 0));
    assert_eq!(run(&graph(0, &[]), &triangle(), &[Scan(0), Extend(2)], on), (vec![], 0, 0, 0));
}

/// G's triangles where two pairs have two labels each, and the pattern asks for none.
#[test]
fn any_label() {
    let any = Query::any(3, &[(0, 1), (0, 2), (1, 2)]);
    let rows = vec![vec![0, 1, 2], vec![1, 2, 3]];
    assert_eq!(run(&doubled(), &any, &[Scan(0), Extend(2)], Cache::Off), (rows.clone(), 18, 0, 0));
    assert_eq!(run(&doubled(), &any, &[Scan(0), Extend(2)], Cache::On), (rows, 18, 0, 0));
    assert_eq!(run(&doubled(), &triangle(), &[Scan(0), Extend(2)], Cache::On), (vec![], 6, 0, 0));
}

#[test]
fn the_worked_lengths() {
    let (store, query) = (Store::load(&g().file()).unwrap(), triangle().file());
    let plan = plan::file(&[Scan(0), Extend(2)]);
    let run = |cache, scratch: usize, list: usize, records: usize| {
        let (scratch, list, records) = (&mut vec![1; scratch], &mut vec![1; list], &mut vec![MARK; records]);
        store.run(&query, &plan, cache, scratch, list, records).map(|m| m.len())
    };
    for cache in [Cache::Off, Cache::On] {
        assert_eq!(run(cache, 6, 6, 2), Ok(2));
        assert_eq!(run(cache, 5, 6, 2), Err(Refusal::ScratchSmall));
        assert_eq!(run(cache, 5, 5, 2), Err(Refusal::ScratchSmall));
        assert_eq!(run(cache, 6, 5, 2), Err(Refusal::ListSmall));
        assert_eq!(run(cache, 5, 5, 1), Err(Refusal::RecordsShort));
    }
    let bushy = plan::file(&[Scan(2), Extend(0), Scan(2), Extend(3), Join]);
    let run = |cache, scratch: usize| {
        store.run(&diamond().file(), &bushy, cache, &mut vec![1; scratch], &mut [1; 4], &mut [MARK; 5]).map(|m| m.len())
    };
    for cache in [Cache::Off, Cache::On] {
        assert_eq!(run(cache, 20), Ok(1));
        assert_eq!(run(cache, 19), Err(Refusal::ScratchSmall));
    }
    assert_eq!(rizhavaan::load_into(&g().file(), &mut [0; 30]), Ok(rizhavaan::Loaded { vertices: 4, edges: 5 }));
    assert_eq!(rizhavaan::load_into(&g().file(), &mut [0; 29]), Err(Refusal::StoreSmall));
    assert_eq!(rizhavaan::check_plan(&query, &plan), Ok(2));
    assert_eq!(rizhavaan::check_plan(&query, &plan[..2]), Err(Refusal::PlanShort));
}

const MARK: Record = Record { rows: 7, cost: 9 };

/// The records of the worked cases, each with its operator.
#[test]
fn the_work_of_each_operator() {
    let store = Store::load(&g().file()).unwrap();
    let bushy = plan::file(&[Scan(2), Extend(0), Scan(2), Extend(3), Join]);
    let mut records = [MARK; 7];
    let (query, scratch, list) = (diamond().file(), &mut [0; 20], &mut [0; 4]);
    let matches = store.run(&query, &bushy, Cache::Off, scratch, list, &mut records).unwrap();
    let (scan, extend) = (rizhavaan::Operator::Scan, rizhavaan::Operator::Extend);
    let want =
        [(scan(2), 5, 0), (extend(0), 2, 13), (scan(2), 5, 0), (extend(3), 2, 13), (rizhavaan::Operator::Join, 1, 0)];
    let work = |(operator, rows, cost)| Work { operator, rows, cost };
    assert!(matches.work().eq(want.map(work)));
    assert!(rizhavaan::operators(&query, &bushy).unwrap().eq(want.map(|(operator, _, _)| operator)));
    assert_eq!(rizhavaan::operators(&query, &bushy[..1]).err(), Some(Refusal::PlanShort));
    assert_eq!(matches.work().map(|work| work.cost).sum::<u64>(), matches.cost);
    assert_eq!(records[5..], [MARK; 2]);

    let plan = plan::file(&[Scan(2), Extend(0), Extend(3)]);
    let store = Store::load(&k().file()).unwrap();
    let mut buffers = Buffers::new();
    let mut costs = |cache| -> Vec<(u64, u64)> {
        let matches = store.run_growing(&query, &plan, cache, &mut buffers).unwrap();
        matches.work().map(|work| (work.rows, work.cost)).collect()
    };
    assert_eq!(costs(Cache::Off), [(7, 0), (3, 24), (2, 7)]);
    assert_eq!(costs(Cache::On), [(7, 0), (3, 24), (2, 4)]);
}

/// A record is laid out as `struct rizhavaan_record` is in C, two numbers of 8 bytes, the rows first. That the library reads it so, every
/// test of a run shows; `c/triangles.c` holds the header to the same.
#[test]
fn the_layout_of_a_record() {
    assert_eq!((size_of::<Record>(), align_of::<Record>()), (16, 8));
    assert_eq!((std::mem::offset_of!(Record, rows), std::mem::offset_of!(Record, cost)), (0, 8));
    let mut records = [MARK; 3];
    let (store, query, plan) = (g().store(), triangle().file(), plan::file(&[Scan(0), Extend(2)]));
    rizhavaan::run(&store, &query, &plan, Cache::On, &mut [0; 6], &mut [0; 6], &mut records).unwrap();
    assert_eq!(records, [Record { rows: 5, cost: 0 }, Record { rows: 2, cost: 13 }, MARK]);
}

#[test]
fn a_store_owns_its_words() {
    let store = Store::load(&g().file()).unwrap();
    assert_eq!((store.vertices(), store.edges()), (4, 5));
    assert_eq!(store.words(), g().store());
    let mut words = store.clone().into_words();
    assert_eq!(Store::from_words(words.clone()), store);
    words[11] += 1;
    let damaged = Store::from_words(words);
    let plan = plan::file(&[Scan(0), Extend(2)]);
    let mut buffers = Buffers::with_words(64, 64);
    let refused = damaged.run_growing(&triangle().file(), &plan, Cache::On, &mut buffers);
    assert_eq!(refused, Err(Refusal::StoreDamaged));
    let empty = Store::from_words(Vec::new());
    assert_eq!((empty.vertices(), empty.edges()), (0, 0));
    assert_eq!(empty.run_growing(&triangle().file(), &plan, Cache::On, &mut buffers), Err(Refusal::StoreDamaged));
}

#[test]
fn refused_files_make_no_store() {
    let file = g().file();
    for len in 0..file.len() {
        assert_eq!(Store::load(&file[..len]), Err(Refusal::GraphShort));
    }
    assert_eq!(Store::load(&[&file[..], &[0]].concat()), Err(Refusal::GraphLong));
    assert_eq!(Store::load(&[255; 5]), Err(Refusal::GraphShort));
}

/// Buffers grow from nothing, more than once, and serve the next run.
#[test]
fn buffers_grow() {
    let store = dense(200);
    let (query, plan) = (Query::plain(2, &[(0, 1)]).file(), plan::file(&[Scan(0)]));
    let mut buffers = Buffers::new();
    for _ in 0..2 {
        let matches = store.run_growing(&query, &plan, Cache::Off, &mut buffers).unwrap();
        assert_eq!((matches.len(), matches.width(), matches.is_empty()), (39_800, 2, false));
        assert_eq!(matches.words().len(), 79_600);
        assert_eq!(matches.rows().next_back(), Some(&[199, 198][..]));
    }
}

/// All pairs of so many vertices, loops too, as a store.
fn dense(n: u16) -> Store {
    let pairs: Vec<(u16, u16)> = (0..n).flat_map(|a| (0..n).map(move |b| (a, b))).collect();
    Store::load(&graph(n.into(), &pairs).file()).unwrap()
}

/// Besides its need a scratch has room for rows that are bounded, counted, or known from the run before: for them and for a set of each
/// extend, of the longest list.
#[test]
fn a_scratch_has_room_for_the_rows() {
    let store = dense(60);
    let grown = |query: &[u8], plan: &[u8], mut buffers: Buffers| {
        let words = store.run_growing(query, plan, Cache::On, &mut buffers).unwrap().words().len();
        let (first, second) = (buffers.words(), store.run_growing(query, plan, Cache::On, &mut buffers).unwrap());
        assert_eq!((second.words().len(), buffers.words()), (words, first), "the next run has what it takes");
        (words, first)
    };
    // A bound of all edges, which is little beside the store: a row for each.
    let (edge, scan) = (Query::plain(2, &[(0, 1)]).file(), plan::file(&[Scan(0)]));
    assert_eq!(grown(&edge, &scan, Buffers::new()), (2 * 60 * 59, (2 + 2 * 60 * 60, 2 * 60 * 60)));
    // A larger one has no room, and the rows that came have it afterwards.
    let (path, plan) = (Query::plain(3, &[(0, 1), (1, 2)]).file(), plan::file(&[Scan(0), Extend(2)]));
    let (words, need) = (3 * 60 * 59 * 58, 2 + 3 + 60);
    assert_eq!(grown(&path, &plan, Buffers::new()), (words, (need + words + 60, 3 * 60 * 60 * 60)));
    // Counted rows have a list of just their words.
    assert_eq!(grown(&path, &plan, Buffers::with_words(1, 0)), (words, (need + words + 60, words)));
    // A drawn plan begins with four times the store's words of list.
    let mut buffers = Buffers::new();
    store.run_drawn(&edge, Cache::On, &mut buffers).unwrap();
    assert_eq!(buffers.words(), (1 << 14, 4 * store.words().len()));
}

/// A result of many rows in buffers of which the scratch has just the need, and a list that grows; and in a scratch that grows, beside a
/// list that is long enough.
#[test]
fn either_buffer_grows() {
    let store = dense(60);
    let (query, plan) = (Query::plain(3, &[(0, 1), (1, 2)]).file(), plan::file(&[Scan(0), Extend(2)]));
    let (rows, need) = (60 * 59 * 58, 2 + 3 + 60);
    for (scratch, list) in [(need, 0), (0, 3 * rows), (need, 3 * rows), (1 << 20, 1 << 20)] {
        let mut buffers = Buffers::with_words(scratch, list);
        let matches = store.run_growing(&query, &plan, Cache::On, &mut buffers).unwrap();
        assert_eq!((matches.len(), matches.cost), (rows, 60 * 59 * 60));
        assert_eq!(matches.rows().next(), Some(&[0, 1, 2][..]));
        assert_eq!(matches.rows().next_back(), Some(&[59, 58, 57][..]));
    }
}

#[test]
fn refusals_have_words() {
    assert_eq!(Refusal::ScratchSmall.to_string(), "refused (20): the run needs more scratch");
    let error: Box<dyn std::error::Error> = Refusal::GraphShort.into();
    assert!(error.to_string().contains("shorter than 5 bytes"));
}
