//! Inspection days and the ranges that query vertices ask for: cases worked by hand, and pairs of runs that answer alike.
use judge::calls::Ran;
use judge::cases::{case, hold, joined as sums, run, Worked};
use judge::graph::Graph;
use judge::matcher::Matcher;
use judge::plan::{self, Operator};
use judge::program::{printed, FILES};
use judge::query::{Days, Query, EVER};
use judge::random::{each, Random};
use judge::rules;
use judge::worked::{doubled, g, graph, triangle};
use rizhavaan::{Buffers, Cache, Refusal, Store};
use std::collections::BTreeSet;
use std::path::Path;
use Operator::{Extend, Join, Scan};

/// G with a day for each vertex.
fn dated() -> Graph {
    g().dated(vec![0, 5, 9, 65_535])
}

fn pair(source: Days, target: Days) -> Query {
    Query::plain(2, &[(0, 1)]).inspected(&[source, target])
}

/// An edge of label 1, and one of label 2 from its end, to an item of these days.
fn two_labels(days: Days) -> Query {
    Query::new(vec![0; 3], vec![(0, 1, 1), (1, 2, 2)]).inspected(&[EVER, EVER, days])
}

/// 0→1, 0→2 and 0→3 of label 1; of label 2, edges from 1 to 4, 5 and 6, from 2 to 4, and from 3 to 4.
fn fan(days: [u16; 7]) -> Graph {
    let edges = vec![(0, 1, 1), (0, 1, 2), (0, 1, 3), (1, 2, 4), (1, 2, 5), (1, 2, 6), (2, 2, 4), (3, 2, 4)];
    Graph::new(vec![0; 7], edges).dated(days.to_vec())
}

/// The pairs of G are 0→1, 0→2, 1→2, 1→3 and 2→3.
fn scanned() -> Vec<Worked> {
    let scanned = |query, rows: &[u32]| case(dated(), query, &[Scan(0)], rows, [0, 0], 2);
    vec![
        scanned(pair(EVER, EVER), &[0, 1, 0, 2, 1, 2, 1, 3, 2, 3]),
        // Both ends of a range belong to it.
        scanned(pair(EVER, (5, 9)), &[0, 1, 0, 2, 1, 2]),
        scanned(pair(EVER, (6, 9)), &[0, 2, 1, 2]),
        scanned(pair(EVER, (5, 8)), &[0, 1]),
        scanned(pair(EVER, (6, 8)), &[]),
        scanned(pair(EVER, (65_535, 65_535)), &[1, 3, 2, 3]),
        scanned(pair(EVER, (10, 65_534)), &[]),
        // Day 0 is a number like the others.
        scanned(pair((0, 0), EVER), &[0, 1, 0, 2]),
        scanned(pair((0, 5), EVER), &[0, 1, 0, 2, 1, 2, 1, 3]),
        scanned(pair((1, 65_535), EVER), &[1, 2, 1, 3, 2, 3]),
        // Both ends of the edge.
        scanned(pair((0, 5), (9, 9)), &[0, 2, 1, 2]),
        scanned(pair((9, 9), (0, 9)), &[]),
        // Where the graph has no days.
        case(g(), pair((0, 0), (0, 65_535)), &[Scan(0)], &[0, 1, 0, 2, 1, 2, 1, 3, 2, 3], [0, 0], 2),
        case(g(), pair((1, 65_535), EVER), &[Scan(0)], &[], [0, 0], 2),
        // Of two labels or of any, a pair is one row.
        case(
            doubled().dated(vec![0, 1, 2, 3]),
            Query::any(2, &[(0, 1)]).inspected(&[EVER, (2, 2)]),
            &[Scan(0)],
            &[0, 2, 1, 2],
            [0, 0],
            2,
        ),
        // Label and day.
        case(
            Graph { labels: vec![7, 7, 8, 7], ..dated() },
            Query { labels: vec![0, 7], ..pair(EVER, (9, 65_535)) },
            &[Scan(0)],
            &[1, 3, 2, 3],
            [0, 0],
            2,
        ),
    ]
}

fn extended() -> Vec<Worked> {
    let two = [Scan(0), Extend(2)];
    vec![
        // All five pairs are extended, at the cost that they have without days.
        case(dated(), triangle().inspected(&[EVER, EVER, (9, 9)]), &two, &[0, 1, 2], [13, 13], 2 + 3 + 1),
        case(dated(), triangle().inspected(&[EVER, EVER, (0, 8)]), &two, &[], [13, 13], 2 + 3),
        // Vertex 0 begins no pair: 2+1, 2+0, 1+0.
        case(dated(), triangle().inspected(&[(1, 65_535), EVER, EVER]), &two, &[1, 2, 3], [6, 6], 2 + 3 + 1),
        // Three motors on a pin, of days 1, 2 and 3. The first is to have one of 1 to 2, the second one of 2 to 3: the set 2, 3 is kept,
        // and the second row strikes 2 from it.
        case(
            graph(4, &[(0, 1), (0, 2), (0, 3)]).dated(vec![0, 1, 2, 3]),
            Query::plain(3, &[(0, 1), (0, 2)]).inspected(&[EVER, (1, 2), (2, 3)]),
            &two,
            &[0, 1, 2, 0, 1, 3, 0, 2, 3],
            [3 + 3, 3],
            2 + 3 + 2,
        ),
        case(graph(0, &[]), triangle().inspected(&[(3, 4); 3]), &two, &[], [0, 0], 2 + 3),
    ]
}

/// A set holds only what fits by label and day.
fn kept_sets() -> Vec<Worked> {
    let two = [Scan(0), Extend(2)];
    vec![
        // Sets of 3, 1 and 1.
        case(
            fan([0, 0, 0, 0, 5, 5, 5]),
            two_labels((5, 5)),
            &two,
            &[0, 1, 4, 0, 1, 5, 0, 1, 6, 0, 2, 4, 0, 3, 4],
            [5, 5],
            2 + 3 + 3,
        ),
        // Of the first set only 4 has the day: sets of 1, 1 and 1.
        case(fan([0, 0, 0, 0, 5, 4, 6]), two_labels((5, 5)), &two, &[0, 1, 4, 0, 2, 4, 0, 3, 4], [5, 5], 2 + 3 + 1),
        // 4 has not the day, 5 not the label.
        case(
            Graph { labels: vec![0, 0, 0, 0, 7, 8, 7], ..fan([0, 0, 0, 0, 4, 5, 5]) },
            Query { labels: vec![0, 0, 7], ..two_labels((5, 5)) },
            &two,
            &[0, 1, 6],
            [5, 5],
            2 + 3 + 1,
        ),
        // No set has anything.
        case(fan([0; 7]), two_labels((1, 65_535)), &two, &[], [5, 5], 2 + 3),
        // 1 leads to 0 alone, which the row has already: it is in the set where its day fits the third vertex.
        case(
            Graph::new(vec![0; 3], vec![(0, 1, 1), (0, 1, 2), (1, 2, 0)]).dated(vec![5, 0, 0]),
            two_labels((5, 5)),
            &two,
            &[],
            [1, 1],
            2 + 3 + 1,
        ),
        case(
            Graph::new(vec![0; 3], vec![(0, 1, 1), (0, 1, 2), (1, 2, 0)]).dated(vec![6, 0, 0]),
            two_labels((5, 5)),
            &two,
            &[],
            [1, 1],
            2 + 3,
        ),
    ]
}

fn joined() -> Vec<Worked> {
    // 0→1→2 and 0→3→2.
    let ways = || graph(4, &[(0, 1), (0, 3), (1, 2), (3, 2)]).dated(vec![0, 5, 0, 6]);
    let path = |days: Days| Query::plain(3, &[(0, 1), (1, 2)]).inspected(&[EVER, days, EVER]);
    let join = [Scan(0), Scan(1), Join];
    vec![
        // The shared vertex is tested on both sides.
        sums(1, 1, case(ways(), path((6, 9)), &join, &[0, 3, 2], [0, 0], 2 + 1 + 1 + 2 + 3)),
        sums(2, 2, case(ways(), path((5, 6)), &join, &[0, 1, 2, 0, 3, 2], [0, 0], 4 + 2 + 2 + 2 + 3)),
        case(ways(), path((7, 7)), &join, &[], [0, 0], 1 + 2 + 3),
    ]
}

#[test]
fn worked_cases() {
    [scanned(), extended(), kept_sets(), joined()].iter().for_each(|cases| hold(cases));
}

/// Runs of one plan over a graph and a query and over their twins, in buffers of the same lengths; none where there are too many rows.
fn both(r: &Random, one: &(Graph, Query), two: &(Graph, Query)) -> Option<[Ran; 2]> {
    let plan = plan::random(r, &one.1);
    let cache = r.chance(1, 2);
    let want = rules::run(&Matcher::new(&one.0), &one.1, &plan, cache, 2_000)?;
    let (scratch, list) = match r.below(3) {
        0 => (r.below(want.need + 2), r.below(want.rows.len() + 2)),
        _ => (want.need, want.rows.len()),
    };
    Some([one, two].map(|(graph, query)| run(r, graph, query, &plan, cache, scratch, list)))
}

/// Compares pairs that answer alike in everything; answers how many rows there were.
fn compare(seeds: std::ops::Range<u64>, twins: impl Fn(&Random, Graph, Query) -> [(Graph, Query); 2]) -> u64 {
    let mut rows = 0;
    each(seeds, |r| {
        let [one, two] = twins(r, Graph::random(r, 14), Query::random(r, 6));
        if let Some([a, b]) = both(r, &one, &two) {
            assert_eq!(a, b, "{one:?} {two:?}");
            rows += a.rows;
        }
    });
    rows
}

/// Where a query asks for every day, days make no difference: rows, costs, needs and records are those without days.
#[test]
fn days_that_nothing_asks_for() {
    let rows = compare(0..8_000, |_, graph, query| {
        let query = Query { days: vec![EVER; query.vertices()], ..query };
        let without = Graph { days: vec![0; graph.vertices()], ..graph.clone() };
        [(without, query.clone()), (graph, query)]
    });
    assert!(rows > 20_000, "{rows} rows");
}

/// Nor does it matter which numbers the days are, as long as their order stays: 0 is one like the others.
#[test]
fn days_moved_together() {
    let rows = compare(8_000..24_000, |r, graph, query| {
        let ends = query.days.iter().flat_map(|&(first, last)| [first, last]);
        let days: BTreeSet<u16> = graph.days.iter().copied().chain(ends).collect();
        let mut numbers = BTreeSet::new();
        while numbers.len() < days.len() {
            numbers.insert(if r.chance(1, 8) { 0 } else { 1 + r.below(65_535) as u16 });
        }
        let numbers: Vec<u16> = numbers.into_iter().collect();
        let moved = |day: u16| numbers[days.iter().position(|&other| other == day).unwrap()];
        let moved_graph = Graph { days: graph.days.iter().map(|&day| moved(day)).collect(), ..graph.clone() };
        let ranges = query.days.iter().map(|&(first, last)| (moved(first), moved(last)));
        let moved_query = Query { days: ranges.collect(), ..query.clone() };
        [(graph, query), (moved_graph, moved_query)]
    });
    assert!(rows > 20_000, "{rows} rows");
}

/// A range of one day asks what a label asks.
#[test]
fn a_day_in_place_of_a_label() {
    let rows = compare(24_000..32_000, |_, graph, query| {
        let labels: Vec<u16> = graph.labels.iter().map(|&label| 1 + label).collect();
        let days = query.labels.iter().map(|&label| if label == 0 { EVER } else { (label, label) }).collect();
        let (n, width) = (graph.vertices(), query.vertices());
        let of_labels = Graph { labels: labels.clone(), days: vec![0; n], ..graph.clone() };
        let by_label = Query { days: vec![EVER; width], ..query.clone() };
        [
            (of_labels, by_label),
            (Graph { labels: vec![0; n], days: labels, ..graph }, Query { labels: vec![0; width], days, ..query }),
        ]
    });
    assert!(rows > 20_000, "{rows} rows");
}

/// Ranges leave those rows, in their order, whose items have the days; the cost is no higher.
#[test]
fn rows_within_the_ranges() {
    let (mut kept, mut dropped) = (0, 0);
    each(32_000..72_000, |r| {
        let (graph, query) = (Graph::random(r, 14), Query::random(r, 6));
        let every = Query { days: vec![EVER; query.vertices()], ..query.clone() };
        if query == every {
            return;
        }
        let plan = plan::random(r, &query);
        let cache = r.chance(1, 2);
        let Some(want) = rules::run(&Matcher::new(&graph), &every, &plan, cache, 2_000) else { return };
        let [all, within] =
            [&every, &query].map(|query| run(r, &graph, query, &plan, cache, want.need, want.rows.len()));
        assert_eq!((all.refusal, within.refusal), (0, 0));
        let fits = |row: &[u32]| {
            let days = row.iter().map(|&x| graph.days[x as usize]);
            days.zip(&query.days).all(|(day, &(first, last))| first <= day && day <= last)
        };
        let rows: Vec<u32> = all.list.chunks(query.vertices()).filter(|row| fits(row)).flatten().copied().collect();
        assert_eq!(within.list, rows, "{graph:?} {query:?} {plan:?}");
        assert!(within.cost <= all.cost, "{graph:?} {query:?} {plan:?}: {} and {}", within.cost, all.cost);
        kept += within.rows;
        dropped += all.rows - within.rows;
    });
    assert!(kept > 10_000 && dropped > 20_000, "{kept} rows within the ranges, {dropped} outside");
}

/// Refusal 25 from each operation that reads a query, before a plan, a store or a buffer is looked at.
#[test]
fn a_first_day_above_the_last() {
    let days = |days: [Days; 3]| triangle().inspected(&days).file();
    let store = Store::load(&dated().file()).unwrap();
    let refused = days([EVER, (9, 9), (6, 5)]);
    assert_eq!(rizhavaan::check_plan(&refused, &[]), Err(Refusal::QueryDays));
    assert_eq!(store.draw_plan(&refused), Err(Refusal::QueryDays));
    let damaged = Store::from_words(vec![1; 8]);
    let mut buffers = Buffers::new();
    assert_eq!(damaged.run_growing(&refused, &[], Cache::On, &mut buffers), Err(Refusal::QueryDays));
    assert_eq!(damaged.run_drawn(&refused, Cache::On, &mut buffers), Err(Refusal::QueryDays));
    let accepted = days([EVER, (9, 9), (6, 6)]);
    assert_eq!(rizhavaan::check_plan(&accepted, &[]), Err(Refusal::PlanShort));
    assert_eq!(store.draw_plan(&accepted).map(|plan| plan.len()), Ok(3));
}

/// The ranges in the table of `examples/lapsed-motors/README.md`, and the rows that it gives for them.
#[test]
fn the_lapsed_motors() {
    let folder = Path::new(concat!(env!("CARGO_MANIFEST_DIR"), "/examples/lapsed-motors"));
    let [graph, query, plan] = FILES.map(|name| std::fs::read(folder.join(name)).unwrap());
    let readme = std::fs::read_to_string(folder.join("README.md")).unwrap();
    let table: Vec<&str> = readme.lines().filter(|line| line.starts_with("| `inspected ")).collect();
    let query = Query::read(&query).unwrap();
    // 30 June 2025.
    let lapsed = 9_312;
    assert_eq!(query.days, [EVER, EVER, (0, lapsed)]);
    let ranges = [(0, lapsed), (1, lapsed), (0, 0), (lapsed + 1, 65_535)];
    assert_eq!(table.len(), ranges.len());
    for (line, days) in table.iter().zip(ranges) {
        let rows: Vec<&str> = line.split('|').nth(2).unwrap().trim().split(", ").collect();
        let text = format!("matches {} cost 6 build 0 probe 0\n{}\n", rows.len(), rows.join("\n"));
        let query = query.clone().inspected(&[EVER, EVER, days]).file();
        assert_eq!(printed(&[graph.clone(), query.clone(), plan.clone()]), text, "{line}");
        let store = Store::load(&graph).unwrap();
        let mut buffers = Buffers::new();
        let matches = store.run_growing(&query, &plan, Cache::On, &mut buffers).unwrap();
        let row = |row: &[u32]| row.iter().map(u32::to_string).collect::<Vec<_>>().join(" ");
        assert_eq!(
            (matches.rows().map(row).collect::<Vec<_>>(), matches.cost),
            (rows.iter().map(|row| row.to_string()).collect(), 6)
        );
    }
}
