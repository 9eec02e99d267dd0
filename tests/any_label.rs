//! Query edges of label 0, which fit graph edges of any label: cases worked by hand, and pairs of runs that answer alike.
use judge::calls::Ran;
use judge::cases::{case, hold, joined, run, Worked};
use judge::graph::Graph;
use judge::matcher::Matcher;
use judge::plan::{self, Operator};
use judge::query::Query;
use judge::random::each;
use judge::rules;
use judge::worked::{bundle, doubled, graph, two_bundles};
use Operator::{Extend, Join, Scan};

fn worked() -> Vec<Worked> {
    let pair = || Query::any(2, &[(0, 1)]);
    let path = || Query::any(3, &[(0, 1), (1, 2)]);
    let triangle = || Query::any(3, &[(0, 1), (0, 2), (1, 2)]);
    let both = || Query::new(vec![0; 2], vec![(0, 1, 0), (0, 1, 2)]);
    vec![
        // Seven edges join five pairs.
        case(doubled(), pair(), &[Scan(0)], &[0, 1, 0, 2, 1, 2, 1, 3, 2, 3], [0, 0], 2),
        // Forward lists of 3, 3, 1 and 0 entries: 3+3, 3+1, 3+1, 3+0, 1+0.
        case(doubled(), triangle(), &[Scan(0), Extend(2)], &[0, 1, 2, 1, 2, 3], [18, 18], 2 + 3 + 1),
        // Backward lists of 0, 2, 3 and 2 entries: 0+2, 0+3, 2+3, 2+2, 3+2.
        case(doubled(), triangle(), &[Scan(2), Extend(0)], &[0, 1, 2, 1, 2, 3], [19, 19], 2 + 3 + 1),
        // A forward and a backward list: 3+2, 3+3, 3+3, 3+2, 1+2.
        case(doubled(), triangle(), &[Scan(1), Extend(1)], &[0, 1, 2, 1, 2, 3], [25, 25], 2 + 3 + 1),
        // Vertex 1 has 2 and 3 in ascending order, whatever their labels; each is one of its set, though 2 has two edges. The
        // vertices used are 1, 2, 2, 3, 3.
        case(
            doubled(),
            path(),
            &[Scan(0), Extend(2)],
            &[0, 1, 2, 0, 1, 3, 0, 2, 3, 1, 2, 3],
            [3 + 1 + 1, 3 + 1],
            2 + 3 + 2,
        ),
        // Both sides of the join have each pair once.
        joined(
            5,
            5,
            case(
                doubled(),
                path(),
                &[Scan(0), Scan(1), Join],
                &[0, 1, 2, 0, 1, 3, 0, 2, 3, 1, 2, 3],
                [0, 0],
                10 + 5 + 8 + 2 + 3,
            ),
        ),
        // An edge of any label and one of label 2 join the same pair: both are tested, whichever is scanned.
        case(doubled(), both(), &[Scan(0)], &[0, 1, 1, 2, 2, 3], [0, 0], 2),
        case(doubled(), both(), &[Scan(1)], &[0, 1, 1, 2, 2, 3], [0, 0], 2),
        // The rows (0, 1), (0, 2) and (1, 3) are extended by a whole list and the portion of label 3: 3+1, 1+0, 0+0.
        case(
            doubled(),
            Query::new(vec![0; 3], vec![(0, 1, 1), (1, 2, 0), (1, 2, 3)]),
            &[Scan(0), Extend(2)],
            &[0, 1, 2],
            [5, 5],
            2 + 3 + 1,
        ),
        // Both directions of a pair: of no pair here.
        case(doubled(), Query::any(2, &[(0, 1), (1, 0)]), &[Scan(0)], &[], [0, 0], 2),
        // Vertex labels are tested as ever: query vertex 1 is to have label 5.
        case(
            Graph { labels: vec![0, 5, 0, 5], ..doubled() },
            Query { labels: vec![0, 5], ..pair() },
            &[Scan(0)],
            &[0, 1, 1, 3, 2, 3],
            [0, 0],
            2,
        ),
        // 255 labels, one row, and all of the list in the cost. Where the far end is taken, no row is left.
        case(bundle(), pair(), &[Scan(0)], &[0, 1], [0, 0], 2),
        case(bundle(), Query::any(3, &[(0, 1), (0, 2)]), &[Scan(0), Extend(2)], &[], [255, 255], 2 + 3 + 1),
        case(bundle(), Query::any(3, &[(0, 1), (2, 1)]), &[Scan(0), Extend(2)], &[], [255, 255], 2 + 3 + 1),
        // Two far ends: each row takes the other one.
        case(
            two_bundles(),
            Query::any(3, &[(0, 1), (0, 2)]),
            &[Scan(0), Extend(2)],
            &[0, 1, 2, 0, 2, 1],
            [2 * 510, 510],
            2 + 3 + 2,
        ),
        // The most edges that a query has: the whole list and the portions of labels 1 to 22.
        case(
            two_bundles(),
            Query::new(vec![0; 3], (0..23).map(|label| (0, 2, label)).chain([(0, 1, 0)]).collect()),
            &[Scan(0), Extend(2)],
            &[0, 1, 2, 0, 2, 1],
            [2 * (510 + 44), 510 + 44],
            2 + 3 + 2,
        ),
        // A vertex that two labels join to itself.
        case(Graph::new(vec![0], vec![(0, 1, 0), (0, 9, 0)]), triangle(), &[Scan(0), Extend(2)], &[], [0, 0], 2 + 3),
        case(graph(2, &[]), triangle(), &[Scan(0), Extend(2)], &[], [0, 0], 2 + 3),
        case(graph(0, &[]), triangle(), &[Scan(0), Extend(2)], &[], [0, 0], 2 + 3),
    ]
}

#[test]
fn worked_cases() {
    hold(&worked());
}

/// Pairs of runs by one plan, which answer alike but for the cost: that of the second is not below that of the first. Answers how
/// many rows there were, and how often the costs differed.
fn compare(seeds: std::ops::Range<u64>, twins: impl Fn(Graph, Query) -> [(Graph, Query); 2]) -> (u64, usize) {
    let (mut rows, mut dearer) = (0, 0);
    each(seeds, |r| {
        let [(graph, query), (other_graph, other_query)] = twins(Graph::random(r, 14), Query::random(r, 6));
        let plan = plan::random(r, &query);
        // Of the edges between a pair it does not matter which is scanned.
        let same_pair =
            |edge: usize| other_query.edges.iter().position(|&(a, b, _)| (a, b) == pair(&query, edge)).unwrap();
        let operator = |&operator: &Operator| if let Scan(edge) = operator { Scan(same_pair(edge)) } else { operator };
        let other_plan: Vec<Operator> = plan.iter().map(operator).collect();
        let cache = r.chance(1, 2);
        let Some(want) = rules::run(&Matcher::new(&graph), &query, &plan, cache, 2_000) else { return };
        let (scratch, list) = match r.below(3) {
            0 => (r.below(want.need + 2), r.below(want.rows.len() + 2)),
            _ => (want.need, want.rows.len()),
        };
        let one = run(r, &graph, &query, &plan, cache, scratch, list);
        let two = run(r, &other_graph, &other_query, &other_plan, cache, scratch, list);
        rows += one.rows;
        dearer += usize::from(two.cost > one.cost);
        let cost = one.cost;
        let pairs = || one.records.iter().zip(&two.records);
        assert!(pairs().all(|(a, b)| a.cost <= b.cost), "{other_graph:?} {other_query:?} {other_plan:?}");
        let records = pairs().map(|(a, b)| rizhavaan::Record { cost: b.cost, ..*a }).collect();
        assert_eq!(two, Ran { cost: two.cost, records, ..one }, "{other_graph:?} {other_query:?} {other_plan:?}");
        assert!(two.cost >= cost, "{other_graph:?} {other_query:?} {other_plan:?}: {} and {cost}", two.cost);
    });
    (rows, dearer)
}

fn pair(query: &Query, edge: usize) -> (usize, usize) {
    (query.edges[edge].0, query.edges[edge].1)
}

/// The query with one label for every edge.
fn relabelled(query: &Query, label: u8) -> Query {
    let edges = query.edges.iter().map(|&(a, b, _)| (a, b, label)).collect();
    Query::new(query.labels.clone(), edges).inspected(&query.days).paired(&query.pairs)
}

/// The graph with label 1 for every edge.
fn of_one_label(graph: &Graph) -> Graph {
    let edges = graph.edges.iter().map(|&(s, _, t)| (s, 1, t)).collect();
    Graph::new(graph.labels.clone(), edges).dated(graph.days.clone())
}

/// Where a graph has one label, that label and any label are the same, in cost too.
#[test]
fn the_only_label() {
    let twins = |graph: Graph, query: Query| [1, 0].map(|label| (of_one_label(&graph), relabelled(&query, label)));
    let (rows, dearer) = compare(0..6_000, twins);
    assert!(rows > 50_000 && dearer == 0, "{rows} rows, {dearer} with another cost");
}

/// Edges of any label find what they find where the graph's labels are forgotten.
#[test]
fn labels_forgotten() {
    let twins = |graph: Graph, query: Query| [of_one_label(&graph), graph].map(|graph| (graph, relabelled(&query, 0)));
    let (rows, dearer) = compare(6_000..14_000, twins);
    assert!(rows > 50_000 && dearer > 500, "{rows} rows, {dearer} with another cost");
}

/// An edge of any label beside one of a label changes no row.
#[test]
fn any_label_beside_a_label() {
    let twins = |graph: Graph, query: Query| {
        let more = query.edges.iter().flat_map(|&(a, b, label)| [(a, b, label), (a, b, 0)]).collect();
        let more = Query::new(query.labels.clone(), more).inspected(&query.days).paired(&query.pairs);
        let more = if more.edges.len() <= 24 { more } else { query.clone() };
        [(graph.clone(), query), (graph, more)]
    };
    let (rows, dearer) = compare(14_000..28_000, twins);
    assert!(rows > 20_000 && dearer > 500, "{rows} rows, {dearer} with another cost");
}
