//! Pairs of query vertices, of which the first is to have the lower number: cases worked by hand, and runs with pairs beside runs without.
use judge::cases::{case, hold, joined as sums, run, Worked};
use judge::graph::Graph;
use judge::matcher::Matcher;
use judge::plan::{self, Operator};
use judge::program::{printed, FILES};
use judge::query::{random_pairs, Pair, Query};
use judge::random::{each, Random};
use judge::rules;
use judge::worked::{g, graph, pin, star, triangle};
use rizhavaan::{Buffers, Cache, Refusal, Store};
use std::path::Path;
use Operator::{Extend, Join, Scan};

/// Unlabelled, with edges of label 1 both ways.
fn two_way(n: usize, lines: &[(u16, u16)]) -> Graph {
    graph(n, &lines.iter().flat_map(|&(a, b)| [(a, b), (b, a)]).collect::<Vec<_>>())
}

/// The same as a query.
fn two_way_query(n: usize, lines: &[Pair]) -> Query {
    Query::plain(n, &lines.iter().flat_map(|&(a, b)| [(a, b), (b, a)]).collect::<Vec<_>>())
}

/// So many vertices, each with a line to each other one.
fn clique(n: u16) -> Graph {
    two_way(n.into(), &(0..n).flat_map(|b| (0..b).map(move |a| (a, b))).collect::<Vec<_>>())
}

fn line() -> Graph {
    two_way(3, &[(0, 1), (1, 2)])
}

fn scanned() -> Vec<Worked> {
    let edge = || Query::plain(2, &[(0, 1)]);
    let both = || Query::plain(2, &[(0, 1), (1, 0)]);
    let scanned = |query: Query, pairs: &[Pair], edge, rows: &[u32]| {
        case(line(), query.paired(pairs), &[Scan(edge)], rows, [0, 0], 2)
    };
    vec![
        scanned(edge(), &[], 0, &[0, 1, 1, 0, 1, 2, 2, 1]),
        scanned(edge(), &[(0, 1)], 0, &[0, 1, 1, 2]),
        scanned(edge(), &[(1, 0)], 0, &[1, 0, 2, 1]),
        scanned(Query::any(2, &[(0, 1)]), &[(1, 0)], 0, &[1, 0, 2, 1]),
        // Either of two edges is scanned; the rows ascend by its source.
        scanned(both(), &[(0, 1)], 0, &[0, 1, 1, 2]),
        scanned(both(), &[(0, 1)], 1, &[0, 1, 1, 2]),
        scanned(both(), &[(1, 0)], 1, &[1, 0, 2, 1]),
        // A contradiction is no fault.
        scanned(edge(), &[(0, 1), (1, 0)], 0, &[]),
        // No edge runs upward, or all do.
        case(g(), edge().paired(&[(1, 0)]), &[Scan(0)], &[], [0, 0], 2),
        case(g(), edge().paired(&[(0, 1)]), &[Scan(0)], &[0, 1, 0, 2, 1, 2, 1, 3, 2, 3], [0, 0], 2),
        // An edge from a vertex to itself: equal is not below.
        case(graph(1, &[(0, 0)]), edge().paired(&[(0, 1)]), &[Scan(0)], &[], [0, 0], 2),
    ]
}

/// Three slings: a row of the scan costs 2 + 2, and its set has one vertex.
fn extended() -> Vec<Worked> {
    let turns = |pairs: &[Pair], rows: &[u32], cost, need| {
        case(clique(3), triangle().paired(pairs), &[Scan(0), Extend(2)], rows, [cost; 2], need)
    };
    let six = [0, 1, 2, 0, 2, 1, 1, 0, 2, 1, 2, 0, 2, 0, 1, 2, 1, 0];
    vec![
        turns(&[], &six, 24, 2 + 3 + 1),
        // Tested by the scan, which leaves half its rows; by the extend alone; by both.
        turns(&[(0, 1)], &[0, 1, 2, 0, 2, 1, 1, 2, 0], 12, 2 + 3 + 1),
        turns(&[(1, 2)], &[0, 1, 2, 1, 0, 2, 2, 0, 1], 24, 2 + 3 + 1),
        turns(&[(2, 0)], &[1, 2, 0, 2, 0, 1, 2, 1, 0], 24, 2 + 3 + 1),
        turns(&[(0, 1), (1, 2)], &[0, 1, 2], 12, 2 + 3 + 1),
        turns(&[(1, 0), (2, 1)], &[2, 1, 0], 12, 2 + 3 + 1),
        // One vertex above both others, and below them.
        turns(&[(0, 2), (1, 2)], &[0, 1, 2, 1, 0, 2], 24, 2 + 3 + 1),
        turns(&[(2, 0), (2, 1)], &[1, 2, 0, 2, 1, 0], 24, 2 + 3 + 1),
        // A pair that follows from others.
        turns(&[(0, 1), (0, 2), (1, 2)], &[0, 1, 2], 12, 2 + 3 + 1),
        // Contradictions, known to the scan, to the extend, and in a circle.
        turns(&[(0, 1), (1, 0)], &[], 0, 2 + 3),
        turns(&[(0, 2), (2, 0)], &[], 24, 2 + 3 + 1),
        turns(&[(0, 1), (1, 2), (2, 0)], &[], 12, 2 + 3 + 1),
        turns(&[(0, 1), (0, 2), (1, 0), (1, 2), (2, 0), (2, 1)], &[], 0, 2 + 3),
    ]
}

/// A set is that before pairs: it counts as it is found, and a later row that reuses it has other vertices to compare with.
fn kept_sets() -> Vec<Worked> {
    let two = [Scan(0), Extend(2)];
    let three = [Scan(0), Extend(2), Extend(3)];
    let hub = || graph(4, &[(2, 0), (2, 1), (2, 3)]);
    vec![
        // The set 1, 2, 3 of the pin serves all three motors.
        case(pin(3), star(3).paired(&[(1, 2)]), &two, &[0, 1, 2, 0, 1, 3, 0, 2, 3], [9, 3], 2 + 3 + 3),
        case(pin(3), star(3).paired(&[(2, 1)]), &two, &[0, 2, 1, 0, 3, 1, 0, 3, 2], [9, 3], 2 + 3 + 3),
        // All of it is dropped, and it counts.
        case(pin(3), star(3).paired(&[(2, 0)]), &two, &[], [9, 3], 2 + 3 + 3),
        case(pin(3), star(3).paired(&[(1, 2), (2, 1)]), &two, &[], [9, 3], 2 + 3 + 3),
        // The pin is 2. One motor below it, of 0 and 1; the other above.
        case(hub(), star(3).paired(&[(0, 2), (1, 0)]), &two, &[2, 0, 3, 2, 1, 3], [6, 3], 2 + 3 + 3),
        // Three motors in their order: of six rows one. Two pairs are tested at once, or one by each extend.
        case(pin(3), star(4).paired(&[(1, 2), (2, 3)]), &three, &[0, 1, 2, 3], [9 + 9, 3 + 3], 2 + 6 + 7),
        case(pin(3), star(4).paired(&[(1, 3), (2, 3)]), &three, &[0, 1, 2, 3, 0, 2, 1, 3], [9 + 18, 3 + 3], 2 + 6 + 7),
    ]
}

fn joined() -> Vec<Worked> {
    let path = [Scan(0), Scan(1), Join];
    let ends = |pairs: &[Pair], [build, probe]: [usize; 2], rows: &[u32]| {
        let query = Query::plain(3, &[(0, 1), (1, 2)]).paired(pairs);
        let need = 2 * build + build + build.next_power_of_two() + 2 + 3;
        sums(build as u64, probe as u64, case(line(), query, &path, rows, [0, 0], need))
    };
    let diamond = Query::plain(4, &[(0, 1), (0, 2), (1, 2), (1, 3), (2, 3)]);
    let bushy = [Scan(2), Extend(0), Scan(2), Extend(3), Join];
    vec![
        ends(&[], [4, 4], &[2, 1, 0, 0, 1, 2]),
        // Between the sides: tested by the join alone.
        ends(&[(0, 2)], [4, 4], &[0, 1, 2]),
        ends(&[(2, 0)], [4, 4], &[2, 1, 0]),
        // Within the build side, within the probe side, and within both.
        ends(&[(0, 1)], [2, 4], &[0, 1, 2]),
        ends(&[(1, 0)], [2, 4], &[2, 1, 0]),
        ends(&[(1, 2)], [4, 2], &[0, 1, 2]),
        ends(&[(0, 1), (1, 2)], [2, 2], &[0, 1, 2]),
        ends(&[(0, 1), (2, 1)], [2, 2], &[]),
        // Contradictions: within a side, between them, and around.
        ends(&[(0, 1), (1, 0)], [0, 4], &[]),
        ends(&[(1, 2), (2, 1)], [4, 0], &[]),
        ends(&[(0, 2), (2, 0)], [4, 4], &[]),
        ends(&[(0, 1), (1, 2), (2, 0)], [2, 2], &[]),
        // The shared vertices 1 and 2 are a pair on both sides, 0 and 3 one between them. Four vertices, each with a line to each other:
        // six rows of each scan, each extended by in- or out-lists of 3 and 3 to two vertices.
        sums(
            12,
            12,
            case(
                clique(4),
                diamond.paired(&[(0, 3), (1, 2)]),
                &bushy,
                &[2, 0, 1, 3, 1, 0, 2, 3, 1, 0, 3, 2, 0, 1, 2, 3, 0, 1, 3, 2, 0, 2, 3, 1],
                [36 + 36; 2],
                36 + 12 + 16 + 7 + 4,
            ),
        ),
    ]
}

#[test]
fn worked_cases() {
    [scanned(), extended(), kept_sets(), joined()].iter().for_each(|cases| hold(cases));
}

/// Runs of a query by one plan with each of two sets of pairs in place of its own, in buffers for the rows without any. None where there
/// are too many.
fn with_pairs(r: &Random, graph: &Graph, query: &Query, sets: [&[Pair]; 2]) -> Option<[judge::calls::Ran; 2]> {
    let plan = plan::random(r, query);
    let cache = r.chance(1, 2);
    let without = query.clone().paired(&[]);
    let want = rules::run(&Matcher::new(graph), &without, &plan, cache, 2_000)?;
    Some(sets.map(|pairs| {
        let query = query.clone().paired(pairs);
        let ran = run(r, graph, &query, &plan, cache, want.need, want.rows.len());
        assert_eq!(ran.refusal, 0, "{graph:?} {query:?} {plan:?}");
        ran
    }))
}

fn satisfies(row: &[u32], pairs: &[Pair]) -> bool {
    pairs.iter().all(|&(low, high)| row[low] < row[high])
}

/// Pairs leave those rows, in their order, that satisfy them; the cost is no higher, and they need no more scratch.
#[test]
fn rows_that_satisfy_the_pairs() {
    let (mut kept, mut dropped) = (0, 0);
    each(0..30_000, |r| {
        let (graph, query) = (Graph::random(r, 14), Query::random(r, 6));
        let pairs = random_pairs(r, query.vertices());
        let Some([all, some]) = with_pairs(r, &graph, &query, [&[], &pairs]) else { return };
        let rows = all.list.chunks(query.vertices()).filter(|row| satisfies(row, &pairs));
        assert_eq!(some.list, rows.flatten().copied().collect::<Vec<u32>>(), "{graph:?} {query:?} {pairs:?}");
        assert!(some.cost <= all.cost, "{graph:?} {query:?} {pairs:?}: {} and {}", some.cost, all.cost);
        kept += some.rows;
        dropped += all.rows - some.rows;
    });
    assert!(kept > 20_000 && dropped > 50_000, "{kept} rows that satisfy the pairs, {dropped} that do not");
}

/// Pairs that follow from others change no row; those that contradict others leave none, and the run is accepted.
#[test]
fn pairs_that_follow_and_pairs_that_contradict() {
    let (mut rows, mut none) = (0, 0);
    each(30_000..50_000, |r| {
        let (graph, query) = (Graph::random(r, 14), Query::random(r, 6));
        let mut order: Vec<usize> = (0..query.vertices()).collect();
        (1..order.len()).for_each(|v| order.swap(v, r.below(v + 1)));
        let mut chain: Vec<Pair> = order.windows(2).map(|two| (two[0], two[1])).collect();
        let mut more: Vec<Pair> = chain.clone();
        for (i, &low) in order.iter().enumerate() {
            more.extend(order[i + 1..].iter().filter(|_| r.chance(1, 2)).map(|&high| (low, high)));
        }
        for pairs in [&mut chain, &mut more] {
            pairs.sort();
            pairs.dedup();
        }
        let Some([one, two]) = with_pairs(r, &graph, &query, [&chain, &more]) else { return };
        assert_eq!((&one.list, one.rows), (&two.list, two.rows), "{graph:?} {query:?} {more:?}");
        assert!(two.cost <= one.cost, "{graph:?} {query:?} {more:?}");
        rows += one.rows;
        chain.push((order[order.len() - 1], order[0]));
        chain.sort();
        let Some([all, circle]) = with_pairs(r, &graph, &query, [&[], &chain]) else { return };
        assert_eq!((circle.rows, circle.list), (0, Vec::new()));
        none += usize::from(all.rows > 0);
    });
    assert!(rows > 10_000 && none > 2_000, "{rows} rows, {none} times none of some");
}

/// A pattern that is the same in several turns has as many times the rows as with pairs that leave one of them.
#[test]
fn every_turn_once() {
    let square = [(0, 1), (1, 2), (2, 3), (0, 3)];
    let patterns: [(Query, &[Pair], u64); 6] = [
        (two_way_query(2, &[(0, 1)]), &[(0, 1)], 2),
        (two_way_query(3, &[(0, 1), (0, 2), (1, 2)]), &[(0, 1), (1, 2)], 6),
        (two_way_query(3, &[(0, 1), (1, 2)]), &[(2, 0)], 2),
        (star(4), &[(1, 2), (2, 3)], 6),
        (two_way_query(4, &square), &[(0, 1), (0, 2), (0, 3), (1, 3)], 8),
        (two_way_query(4, &[(0, 1), (0, 2), (0, 3), (1, 2), (1, 3), (2, 3)]), &[(0, 1), (1, 2), (2, 3)], 24),
    ];
    let mut rows = [0; 6];
    each(50_000..54_000, |r| {
        let random = Graph::random(r, 12);
        let lines: Vec<(u16, u16)> = random.edges.iter().map(|edge| (edge.0, edge.2)).collect();
        let graph = two_way(random.vertices(), &lines);
        let at = r.below(patterns.len());
        let (query, pairs, turns) = &patterns[at];
        let Some([all, once]) = with_pairs(r, &graph, query, [&[], pairs]) else { return };
        assert_eq!(all.rows, turns * once.rows, "{graph:?} {query:?} {pairs:?}");
        rows[at] += once.rows;
    });
    assert!(rows.iter().all(|&count| count > 500), "{rows:?}");
}

/// Refusal 26 from each operation that reads a query, before a plan, a store or a buffer is looked at.
#[test]
fn a_faulty_pair() {
    let store = Store::load(&g().file()).unwrap();
    let damaged = Store::from_words(vec![1; 8]);
    let mut buffers = Buffers::new();
    for pairs in [&[(1, 1)][..], &[(0, 3)], &[(0, 1), (0, 1)], &[(1, 2), (0, 1)]] {
        let refused = triangle().paired(pairs).file();
        assert_eq!(rizhavaan::check_plan(&refused, &[]), Err(Refusal::QueryPair));
        assert_eq!(store.draw_plan(&refused), Err(Refusal::QueryPair));
        assert_eq!(damaged.run_growing(&refused, &[], Cache::On, &mut buffers), Err(Refusal::QueryPair));
        assert_eq!(damaged.run_drawn(&refused, Cache::On, &mut buffers), Err(Refusal::QueryPair));
    }
    let contradiction = triangle().paired(&[(0, 1), (1, 0)]).file();
    assert_eq!(rizhavaan::check_plan(&contradiction, &[]), Err(Refusal::PlanShort));
    // A drawn plan is the same with pairs.
    assert_eq!(store.draw_plan(&contradiction), store.draw_plan(&triangle().file()));
    assert_eq!(store.run_drawn(&contradiction, Cache::On, &mut buffers).map(|matches| matches.len()), Ok(0));
}

/// The pairs in the table of `examples/equal-slings/README.md`, and the rows and costs that it gives for them.
#[test]
fn the_equal_slings() {
    let folder = Path::new(concat!(env!("CARGO_MANIFEST_DIR"), "/examples/equal-slings"));
    let [graph, query, plan] = FILES.map(|name| std::fs::read(folder.join(name)).unwrap());
    let readme = std::fs::read_to_string(folder.join("README.md")).unwrap();
    let table: Vec<Vec<&str>> = readme
        .lines()
        .filter(|line| line.starts_with("| none") || line.starts_with("| `"))
        .map(|line| line.split('|').map(str::trim).collect())
        .collect();
    let query = Query::read(&query).unwrap();
    let sets: [&[Pair]; 4] = [&[], &[(0, 1)], &[(0, 1), (1, 2)], &[(0, 1), (1, 0)]];
    assert_eq!((query.pairs.as_slice(), table.len()), (sets[2], sets.len()));
    for (cells, (pairs, count)) in table.iter().zip(sets.into_iter().zip([6, 3, 1, 0])) {
        let rows: Vec<&str> = cells[2].split(", ").filter(|row| !row.is_empty()).collect();
        assert_eq!(rows.len(), count);
        let mut text = format!("matches {count} cost {} build 0 probe 0\n", cells[3]);
        rows.iter().for_each(|row| text += &format!("{row}\n"));
        let query = query.clone().paired(pairs).file();
        assert_eq!(printed(&[graph.clone(), query.clone(), plan.clone()]), text, "{cells:?}");
        let store = Store::load(&graph).unwrap();
        let mut buffers = Buffers::new();
        let matches = store.run_growing(&query, &plan, Cache::On, &mut buffers).unwrap();
        let row = |row: &[u32]| row.iter().map(u32::to_string).collect::<Vec<_>>().join(" ");
        assert_eq!(matches.rows().map(row).collect::<Vec<_>>(), rows);
        assert_eq!(matches.cost.to_string(), cells[3]);
    }
}
