//! Changes to a hang: cases worked by hand, to which the judge and the library are held, and the swap of the example.
use judge::calls::{self, Loaded};
use judge::changes::{self, add, take, Change};
use judge::drawn;
use judge::graph::{Edge, Graph};
use judge::matcher::Matcher;
use judge::plan::{self, Operator};
use judge::query::Query;
use judge::random::each;
use judge::rules;
use judge::worked::{g, graph, triangle};
use rizhavaan::{Buffers, Cache, Store};
use std::path::Path;
use Operator::{Extend, Scan};

/// Bytes of bits, with blanks between fields.
fn bytes(bits: &str) -> Vec<u8> {
    let bits: Vec<u8> = bits.bytes().filter(|bit| *bit != b' ').map(|bit| bit - b'0').collect();
    bits.chunks(8).map(|byte| (0..8).fold(0, |value, i| 2 * value + byte.get(i).unwrap_or(&0))).collect()
}

/// The judge and the library make this graph, and these words, of a graph and a file of changes.
fn hold(old: &Graph, changes: &[Change], file: &[u8], new: &Graph, words: &[u32]) {
    assert_eq!(changes::file(changes), file);
    assert_eq!(changes::read(file, old.vertices()).as_deref(), Ok(changes));
    assert_eq!(changes::edited(old, changes).as_ref(), Ok(new));
    assert_eq!(new.store(), words);
    each(0..1, |r| {
        let mut store = r.words(words.len());
        let answer = calls::apply_changes(r, &old.store(), file, &mut store);
        let (vertices, edges) = (new.vertices() as u64, new.edges.len() as u64);
        assert_eq!(answer, Loaded { refusal: 0, vertices, edges });
        assert_eq!(store, words);
        for room in 0..words.len() {
            let mut store = r.words(room);
            assert_eq!(calls::apply_changes(r, &old.store(), file, &mut store).refusal, 5);
        }
    });
}

const G: [u32; 30] = [
    4, 5, 0, 0, 0, 0, 0, 0, 0, 0, // N, M, labels, days
    0, 2, 4, 5, 5, 65_537, 65_538, 65_538, 65_539, 65_539, // forward
    0, 0, 1, 3, 5, 65_536, 65_536, 65_537, 65_537, 65_538, // backward
];

#[test]
fn no_change() {
    hold(&g(), &[], &[0, 0, 0], &g(), &G);
    hold(&graph(0, &[]), &[], &[0, 0, 0], &graph(0, &[]), &[0, 0, 0, 0]);
}

/// 0→2 is taken away; 0→1 gets a second label, and 3→0 comes new.
#[test]
fn three_changes() {
    let file = bytes(
        "00000000000000000011 \
         0 0000000000000000 00000001 0000000000000010 \
         1 0000000000000000 00000010 0000000000000001 \
         1 0000000000000011 00000001 0000000000000000",
    );
    assert_eq!(file.len(), 18);
    let changes = [take((0, 1, 2)), add((0, 2, 1)), add((3, 1, 0))];
    let edges = vec![(0, 1, 1), (0, 2, 1), (1, 1, 2), (1, 1, 3), (2, 1, 3), (3, 1, 0)];
    let words = [
        4, 6, 0, 0, 0, 0, 0, 0, 0, 0, // N, M, labels, days
        0, 2, 4, 5, 6, 65_537, 131_073, 65_538, 65_539, 65_539, 65_536, // forward
        0, 1, 3, 4, 6, 65_539, 65_536, 131_072, 65_537, 65_537, 65_538, // backward
    ];
    hold(&g(), &changes, &file, &Graph::new(vec![0; 4], edges), &words);
}

/// Every edge away, and every edge back: the first and the last vertex among them.
#[test]
fn all_edges() {
    let none = graph(4, &[]);
    let words: Vec<u32> = [4].into_iter().chain([0; 19]).collect();
    let away: Vec<Change> = g().edges.into_iter().map(take).collect();
    let file = bytes(
        "00000000000000000101 \
         0 0000000000000000 00000001 0000000000000001 \
         0 0000000000000000 00000001 0000000000000010 \
         0 0000000000000001 00000001 0000000000000010 \
         0 0000000000000001 00000001 0000000000000011 \
         0 0000000000000010 00000001 0000000000000011",
    );
    hold(&g(), &away, &file, &none, &words);
    let back = changes::reverse(&away);
    hold(&none, &back, &changes::file(&back), &g(), &G);
}

/// One vertex: an edge to itself of the last label comes, and goes. Label and day stay.
#[test]
fn one_vertex() {
    let bare = Graph::new(vec![65_535], vec![]).dated(vec![9_815]);
    let tied = Graph::new(vec![65_535], vec![(0, 255, 0)]).dated(vec![9_815]);
    let edge = "0000000000000000 11111111 0000000000000000";
    let words = [1, 1, 65_535, 9_815, 0, 1, 16_711_680, 0, 1, 16_711_680];
    hold(&bare, &[add((0, 255, 0))], &bytes(&format!("00000000000000000001 1 {edge}")), &tied, &words);
    let words = [1, 0, 65_535, 9_815, 0, 0, 0, 0];
    hold(&tied, &[take((0, 255, 0))], &bytes(&format!("00000000000000000001 0 {edge}")), &bare, &words);
}

/// One change of a long list, which is few beside the edges: in its middle, and at both of its ends.
#[test]
fn one_change_of_many_edges() {
    let pairs: Vec<(u16, u16)> = (1..30).map(|t| (0, 2 * t)).collect();
    let hub = graph(60, &pairs);
    let changed = |change: Change| {
        let edges = hub.edges.iter().copied().filter(|&edge| edge != change.edge);
        let new = Graph::new(vec![0; 60], edges.chain(change.adds.then_some(change.edge)).collect());
        hold(&hub, &[change], &changes::file(&[change]), &new, &new.store());
    };
    for target in [2, 30, 58] {
        changed(take((0, 1, target)));
    }
    for edge in [(0, 1, 0), (0, 1, 1), (0, 1, 31), (0, 1, 59), (0, 2, 0), (59, 1, 0), (59, 255, 59)] {
        changed(add(edge));
    }
}

/// G's triangles, as changes come one after the other, each to the store before.
#[test]
fn triangles_change_by_change() {
    let (query, plan) = (triangle().file(), plan::file(&[Scan(0), Extend(2)]));
    let mut store = Store::load(&g().file()).unwrap();
    let mut rows = |change: Option<Change>| -> Vec<Vec<u32>> {
        if let Some(change) = change {
            store = store.changed(&changes::file(&[change])).unwrap();
        }
        let mut buffers = Buffers::new();
        let matches = store.run_growing(&query, &plan, Cache::On, &mut buffers).unwrap();
        matches.rows().map(<[u32]>::to_vec).collect()
    };
    assert_eq!(rows(None), [[0, 1, 2], [1, 2, 3]]);
    assert_eq!(rows(Some(add((0, 1, 3)))), [[0, 1, 2], [0, 1, 3], [0, 2, 3], [1, 2, 3]]);
    assert_eq!(rows(Some(take((1, 1, 2)))), [[0, 1, 3], [0, 2, 3]]);
    assert_eq!(rows(Some(add((2, 1, 1)))), [[0, 1, 3], [0, 2, 1], [0, 2, 3], [2, 1, 3]]);
    assert_eq!(rows(Some(take((0, 1, 3)))), [[0, 2, 1], [2, 1, 3]]);
}

/// The rows of a graph, by the plan that is drawn for it and the judge's rules.
fn judged(graph: &Graph, query: &Query) -> (Vec<u32>, u64) {
    let plan = drawn::plan(graph, query);
    let answer = rules::run(&Matcher::new(graph), query, &plan, true, 100).unwrap();
    (answer.rows, answer.cost)
}

/// The table and the printed lines of the truss swap, before and after.
#[test]
fn the_truss_swap() {
    let folder = Path::new(concat!(env!("CARGO_MANIFEST_DIR"), "/examples/truss-swap"));
    let read = |name: &str| std::fs::read(folder.join(name)).unwrap();
    let text = |name: &str| String::from_utf8(read(name)).unwrap();
    let (before, query) = (Graph::read(&read("g.bin")).unwrap(), Query::read(&read("q.bin")).unwrap());
    let changes = changes::read(&read("c.bin"), before.vertices()).unwrap();
    let after = changes::edited(&before, &changes).unwrap();
    let count = |adds: bool| changes.iter().filter(|change| change.adds == adds).count();
    assert_eq!((count(false), count(true)), (9, 8));
    // Nothing is left at the front truss, and the long one was bare.
    let at = |graph: &Graph, v: u16| graph.edges.iter().filter(|edge: &&Edge| edge.0 == v || edge.2 == v).count();
    assert_eq!([at(&before, 8), at(&before, 10), at(&after, 8), at(&after, 10)], [8, 0, 0, 8]);

    let readme = text("README.md");
    let row = |words: &[u32]| words.iter().map(u32::to_string).collect::<Vec<_>>().join(" ");
    let mut printed = String::new();
    let store = Store::load(&read("g.bin")).unwrap();
    let changed = store.changed(&read("c.bin")).unwrap();
    for (when, graph, store) in [("before", &before, &store), ("after", &after, &changed)] {
        let (rows, cost) = judged(graph, &query);
        let cells: Vec<&str> =
            readme.lines().find(|line| line.starts_with(&format!("| {when} |"))).unwrap().split('|').collect();
        assert_eq!(cells[2].trim(), graph.edges.len().to_string());
        assert_eq!(cells[3].trim(), row(&rows));
        let mut buffers = Buffers::new();
        let matches = store.run_drawn(&query.file(), Cache::On, &mut buffers).unwrap();
        assert_eq!((matches.words(), matches.cost), (&rows[..], cost));
        printed += &format!("{when} edges {} matches 1 cost {cost}\n{}\n", graph.edges.len(), row(&rows));
    }
    assert_eq!(text("expected.txt"), printed);
}
