//! Two companies in one grid: edges whose labels a query does not name are added and taken away, and no answer changes. Each answer
//! over the changed store is compared with that over the old one, refused ones too.
use judge::calls::{self, Input, Ran};
use judge::cases::run;
use judge::changes::{self, Change};
use judge::found::{find, Lengths};
use judge::graph::{Edge, Graph};
use judge::matcher::Matcher;
use judge::plan::{self, Operator};
use judge::query::Query;
use judge::random::{each, Random};
use judge::rules;
use judge::worked::{g, triangle};
use rizhavaan::{Buffers, Cache, Store};
use std::collections::BTreeSet;
use Operator::{Extend, Scan};

/// Changes to edges whose labels are not among these: some of those that the graph has are taken away, and some are added, also between
/// items that another edge joins.
fn foreign(r: &Random, graph: &Graph, named: &BTreeSet<u8>) -> Vec<Change> {
    let n = graph.vertices();
    let part = r.below(4);
    let mut edges: BTreeSet<Edge> = graph.edges.iter().filter(|_| r.below(3) < part).copied().collect();
    for _ in 0..if n == 0 { 0 } else { r.below(40) } {
        let (source, target) = match graph.edges.len() {
            m if m > 0 && r.chance(1, 2) => {
                let (source, _, target) = graph.edges[r.below(m)];
                (source, target)
            }
            _ => (r.below(n) as u16, r.below(n) as u16),
        };
        let label = 1 + r.below(if r.chance(1, 2) { 6 } else { 255 });
        edges.insert((source, label as u8, target));
    }
    let present = |edge: &Edge| graph.edges.binary_search(edge).is_ok();
    let foreign = edges.into_iter().filter(|edge| !named.contains(&edge.1));
    foreign.map(|edge| Change { adds: !present(&edge), edge }).collect()
}

fn labels(query: &Query) -> BTreeSet<u8> {
    query.edges.iter().map(|edge| edge.2).collect()
}

/// Without label 0: its edges take one of the labels.
fn named(r: &Random, query: Query) -> Query {
    let label = 1 + r.below(3) as u8;
    let edges = query.edges.iter().map(|&(a, b, l)| (a, b, if l == 0 { label } else { l })).collect();
    Query::new(query.labels.clone(), edges).inspected(&query.days).paired(&query.pairs)
}

/// The store after changes, which is the one that the edited graph's file loads to.
fn changed(r: &Random, graph: &Graph, foreign: &[Change]) -> Vec<u32> {
    let edited = changes::edited(graph, foreign).unwrap();
    let mut store = vec![0; edited.store_size()];
    assert_eq!(calls::apply_changes(r, &graph.store(), &changes::file(foreign), &mut store).refusal, 0);
    assert_eq!(store, edited.store());
    store
}

/// Plans, drawn ones too, their bounds, all orderings, lengths that fit and that do not, plans and queries that are refused: every number,
/// row, record, word and byte.
#[test]
fn no_answer_changes() {
    let (mut seen, mut rows, mut differing, mut entries) = ([0usize; 31], 0, 0, 0);
    each(0..40_000, |r| {
        let graph = Graph::random(r, 14);
        let query = named(r, Query::random(r, 6));
        let mut plan = plan::random(r, &query);
        let cache = r.chance(1, 2);
        let want = rules::run(&Matcher::new(&graph), &query, &plan, cache, 2_000);
        let (need, list) = want.map_or((40, 40), |want| (want.need, want.rows.len()));
        if r.chance(1, 8) {
            plan::disturb(r, &query, &mut plan);
        }
        let (mut query_file, mut plan_file) = (query.file(), plan::file(&plan));
        match r.below(16) {
            0 => r.damage(&mut query_file),
            1 => r.damage(&mut plan_file),
            _ => (),
        }
        // A damaged file may be accepted, with other labels; of a refused one nothing is asked.
        let named = Query::read(&query_file).as_ref().map_or_else(|_| BTreeSet::new(), labels);
        if named.contains(&0) {
            return;
        }
        let foreign = foreign(r, &graph, &named);
        let (one, two) = (graph.store(), changed(r, &graph, &foreign));
        differing += usize::from(one != two);
        let (scratch, list) = match r.below(4) {
            0 => (r.below(need + 2), list),
            1 => (need, r.below(list + 2)),
            2 => (need + r.below(40), list + r.below(10)),
            _ => (need, list),
        };
        let records = if r.chance(1, 8) { r.below(plan.len() + 1) } else { plan.len() };
        let over = |store: &[u32]| {
            let input = Input { store, query: &query_file, plan: &plan_file, cache };
            calls::run_recording(r, &input, scratch, list, records)
        };
        let (first, second) = (over(&one), over(&two));
        assert_eq!(first, second, "{graph:?} {foreign:?} {query:?} {plan:?} {cache} {scratch} {list} {records}");
        seen[first.refusal as usize] += 1;
        rows += first.rows;
        let room = r.below(8);
        let draw = |store: &[u32]| calls::draw_plan(r, store, &query_file, room);
        let drawn = draw(&one);
        assert_eq!(drawn, draw(&two), "{graph:?} {foreign:?} {query:?}");
        let lengths = Lengths { plan: room, scratch, list, records };
        let found = |store: &[u32]| find(r, store, &query_file, &drawn.1, cache, lengths);
        assert_eq!(found(&one), found(&two), "{graph:?} {foreign:?} {query:?} {cache} {lengths:?}");
        let bounds = |store: &[u32]| calls::bounds(r, store, &query_file, &plan_file);
        assert_eq!(bounds(&one), bounds(&two), "{graph:?} {foreign:?} {query:?} {plan:?}");
        let (scratch, room) = (r.below(need + 200), if r.chance(1, 2) { 864 } else { r.below(60) });
        let orderings = |store: &[u32]| calls::orderings(r, store, &query_file, scratch, room);
        let listed = orderings(&one);
        assert_eq!(listed, orderings(&two), "{graph:?} {foreign:?} {query:?} {scratch} {room}");
        entries += listed.1;
    });
    assert!(entries > 20_000, "{entries} orderings");
    assert!(rows > 30_000 && differing > 30_000, "{rows} rows, {differing} stores that differ");
    assert!([0, 6, 7, 9, 12, 14, 16, 20, 21, 22].iter().all(|&k| seen[k] > 20), "{seen:?}");
}

/// The same through the wrapper: a loaded store that takes the changes and then gives them back, and buffers that grow.
#[test]
fn through_the_wrapper() {
    each(0..4_000, |r| {
        let graph = Graph::random(r, 14);
        let query = named(r, Query::random(r, 5));
        if rules::run(&Matcher::new(&graph), &query, &plan::random(r, &query), false, 2_000).is_none() {
            return;
        }
        let foreign = foreign(r, &graph, &labels(&query));
        let store = Store::load(&graph.file()).unwrap();
        let shared = store.changed(&changes::file(&foreign)).unwrap();
        let back = shared.changed(&changes::file(&changes::reverse(&foreign))).unwrap();
        assert_eq!(back.words(), store.words());
        let (query, plan) = (query.file(), plan::file(&plan::random(r, &query)));
        assert_eq!(store.draw_plan(&query), shared.draw_plan(&query), "{graph:?} {foreign:?} {query:?}");
        let cache = if r.chance(1, 2) { Cache::On } else { Cache::Off };
        let (mut one, mut two) = (Buffers::new(), Buffers::new());
        let (alone, beside) =
            (store.run_growing(&query, &plan, cache, &mut one), shared.run_growing(&query, &plan, cache, &mut two));
        assert_eq!(alone, beside, "{graph:?} {foreign:?} {query:?} {plan:?}");
        let (mut one, mut two) = (Buffers::new(), Buffers::new());
        let (alone, beside) = (store.run_drawn(&query, cache, &mut one), shared.run_drawn(&query, cache, &mut two));
        assert_eq!(alone, beside, "{graph:?} {foreign:?} {query:?}");
    });
}

/// G with edges of label 2 hung beside it: its triangles and their cost stay. A pattern of any label finds a row more, pays for the
/// other entries too, and has another scan drawn.
#[test]
fn worked() {
    let both: Vec<Edge> = g().edges.into_iter().chain([(0, 2, 1), (3, 2, 0)]).collect();
    let shared = Graph::new(vec![0; 4], both);
    each(0..1, |r| {
        let ran = |graph: &Graph, query: &Query, plan: &[Operator]| run(r, graph, query, plan, false, 100, 100);
        let path = [Scan(0), Extend(2)];
        assert_eq!(ran(&g(), &triangle(), &path), ran(&shared, &triangle(), &path));
        let numbers = |ran: Ran| (ran.rows, ran.cost);
        let any = Query::any(2, &[(0, 1)]);
        assert_eq!([&g(), &shared].map(|graph| numbers(ran(graph, &any, &[Scan(0)]))), [(5, 0), (6, 0)]);
        // The portion of vertex 0 for any label is longer by one, for two rows.
        let mixed = Query::new(vec![0; 3], vec![(0, 1, 1), (0, 2, 0), (1, 2, 1)]);
        assert_eq!([&g(), &shared].map(|graph| numbers(ran(graph, &mixed, &path))), [(2, 13), (2, 15)]);
        // Of label 0 there are 5 edges and then 7, of label 1 there are 5.
        let beside = Query::new(vec![0; 2], vec![(0, 1, 0), (0, 1, 1)]).file();
        let drawn = [&g(), &shared].map(|graph| Store::load(&graph.file()).unwrap().draw_plan(&beside).unwrap());
        assert_eq!(drawn, [0, 1].map(|edge| plan::file(&[Scan(edge)])));
    });
}
