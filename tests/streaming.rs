//! Rows streamed through the plan, of which only a join's build side is held: the need by its sums, in cases worked by hand, and plans with
//! build sides that wait for each other. Refusal 30, of a number that passes 64 bits, is reached by no run that ends in a test's time: an
//! operand row costs less than 24 × 1,048,576 entries, so that more than 700,000 million rows would have to be looked up, or 2^64 counted.
use judge::cases::{case, hold, joined, Worked};
use judge::compare::Case;
use judge::graph::Graph;
use judge::plan::{self, Operator};
use judge::query::Query;
use judge::random::each;
use judge::worked::{diamond, g, graph, k, triangle};
use rizhavaan::{Buffers, Cache, Store};
use Operator::{Extend, Join, Scan};

/// The path through so many vertices.
fn path(n: usize) -> Query {
    Query::plain(n, &(1..n).map(|v| (v - 1, v)).collect::<Vec<_>>())
}

/// 0→1, 1→2 and so on.
fn line(n: u16) -> Graph {
    graph(n.into(), &(1..n).map(|v| (v - 1, v)).collect::<Vec<_>>())
}

/// The document's cases.
fn stated() -> Vec<Worked> {
    let two = [Scan(0), Extend(2)];
    let deep = [Scan(2), Extend(0), Extend(3)];
    let both = [0, 1, 2, 1, 2, 3];
    vec![
        case(g(), triangle(), &two, &both, [13, 13], 6),
        case(g(), triangle(), &[Scan(2), Extend(0)], &both, [13, 13], 6),
        case(g(), triangle(), &[Scan(1), Extend(1)], &both, [18, 18], 6),
        case(g(), diamond(), &deep, &[0, 1, 2, 3], [17, 17], 11),
        joined(
            2,
            2,
            case(g(), diamond(), &[Scan(2), Extend(0), Scan(2), Extend(3), Join], &[0, 1, 2, 3], [26, 26], 20),
        ),
        case(k(), diamond(), &deep, &[0, 2, 3, 4, 1, 2, 3, 4], [31, 28], 12),
        case(graph(1, &[(0, 0)]), triangle(), &two, &[], [0, 0], 5),
        case(graph(0, &[]), triangle(), &two, &[], [0, 0], 5),
    ]
}

fn longest_sets() -> Vec<Worked> {
    let deep = [Scan(0), Extend(2), Extend(3)];
    vec![
        // The longest sets come at different rows, 2, 3 of 0→1 and 7, 8 of 5→6: 12 words are held at once, and both sets count.
        case(
            graph(9, &[(0, 1), (1, 2), (1, 3), (4, 5), (5, 6), (6, 7), (6, 8)]),
            path(4),
            &deep,
            &[4, 5, 6, 7, 4, 5, 6, 8],
            [7, 7],
            2 + (3 + 2) + (4 + 2),
        ),
        // The row just before goes across the rows of the extend below: its set is found once, and was lost to no longer one.
        case(
            graph(4, &[(0, 1), (0, 2), (0, 3)]),
            Query::plain(4, &[(0, 1), (0, 2), (0, 3)]),
            &deep,
            &[0, 1, 2, 3, 0, 1, 3, 2, 0, 2, 1, 3, 0, 2, 3, 1, 0, 3, 1, 2, 0, 3, 2, 1],
            [9 + 18, 3 + 3],
            2 + (3 + 3) + (4 + 3),
        ),
        // The set of the last extend, of vertex 0 alone, stays the same while that of the extend below it grows from 1 to 2 and 3: wherever
        // it was kept, it costs nothing again. Rows of edges 0→1, 1→2 and 0→3.
        case(
            Graph::new(
                vec![0; 10],
                vec![
                    (0, 1, 1),
                    (0, 1, 2),
                    (0, 1, 3),
                    (0, 3, 9),
                    (1, 2, 4),
                    (2, 2, 4),
                    (2, 2, 5),
                    (3, 2, 4),
                    (3, 2, 5),
                    (3, 2, 6),
                ],
            ),
            Query::new(vec![0; 4], vec![(0, 1, 1), (0, 3, 3), (1, 2, 2)]),
            &deep,
            &[0, 1, 4, 9, 0, 2, 4, 9, 0, 2, 5, 9, 0, 3, 4, 9, 0, 3, 5, 9, 0, 3, 6, 9],
            [(1 + 2 + 3) + 6, (1 + 2 + 3) + 1],
            2 + (3 + 3) + (4 + 1),
        ),
        // A set that no row leads to is none: of 0→1 and 2→3 only 1 leads on.
        case(
            Graph::new(vec![0; 6], vec![(0, 1, 1), (1, 2, 4), (1, 2, 5), (2, 1, 3)]),
            Query::new(vec![0; 4], vec![(0, 1, 1), (1, 2, 2), (2, 3, 3)]),
            &deep,
            &[],
            [2, 2],
            2 + (3 + 2) + 4,
        ),
    ]
}

/// Rows of label 2: 0→1, 1→2 and 1→3.
fn fork() -> Graph {
    Graph::new(vec![0; 4], vec![(0, 2, 1), (1, 2, 2), (1, 2, 3)])
}

/// Ten edges of label 1 and one of label 2 from vertex 0; vertex 3 has label 7.
fn hub() -> Graph {
    let edges = (1..=10).map(|t| (0, 1, t)).chain([(0, 2, 11)]).collect();
    Graph::new((0..12).map(|v| if v == 3 { 7 } else { 0 }).collect(), edges)
}

/// Two ends of label 1 and one of label 2, the first of a label.
fn spread(label: u16) -> Query {
    Query::new(vec![0, label, 0, 0], vec![(0, 1, 1), (0, 2, 1), (0, 3, 2)])
}

fn joins() -> Vec<Worked> {
    let bushy = [Scan(0), Scan(1), Join, Scan(2), Scan(3), Join, Join];
    let waiting = [Scan(0), Scan(1), Scan(2), Scan(3), Join, Join, Join];
    let one_by_one = [Scan(0), Scan(1), Join, Scan(2), Join, Scan(3), Join];
    let rows = [0, 1, 2, 3, 4, 1, 2, 3, 4, 5];
    let chain =
        |build, probe, plan: &[Operator], need| joined(build, probe, case(line(6), path(5), plan, &rows, [0, 0], need));
    let late = Query::new(vec![0; 4], vec![(0, 1, 1), (1, 2, 2), (2, 3, 2)]);
    let aside = [Scan(0), Extend(2), Scan(2), Join];
    vec![
        // Five edges in a line. Two edges joined need 10 + 5 + 8 + 2 + 3 = 28, and have four rows; two such 12 + 4 + 4 + 28 + 5.
        chain(5 + 5 + 4, 5 + 5 + 4, &bushy, 53),
        // Three build sides wait for the last scan: 28, then 10 + 5 + 8 + 28 + 4 = 55, then 10 + 5 + 8 + 55 + 5.
        chain(5 + 5 + 5, 5 + 4 + 3, &waiting, 83),
        // The result of each join is the next one's build side: 28, then the larger of 28 + 12 and 12 + 4 + 4 + 2 + 4, then that of
        // 40 + 12 and 12 + 3 + 4 + 2 + 5.
        chain(5 + 4 + 3, 5 + 5 + 5, &one_by_one, 52),
        // No build row: one head. The probe side is run to its end all the same, with its cost and its longest set.
        joined(
            0,
            3,
            case(
                fork(),
                Query::new(vec![0; 3], vec![(0, 1, 1), (1, 2, 2)]),
                &[Scan(0), Scan(1), Join],
                &[],
                [0, 0],
                1 + 2 + 3,
            ),
        ),
        joined(
            0,
            2,
            case(fork(), late.clone(), &[Scan(0), Scan(1), Extend(3), Join], &[], [2, 2], 1 + (2 + 3 + 2) + 4),
        ),
        // No probe row: the build side is held all the same.
        joined(
            3,
            0,
            case(
                fork(),
                Query::new(vec![0; 3], vec![(0, 1, 2), (1, 2, 1)]),
                &[Scan(0), Scan(1), Join],
                &[],
                [0, 0],
                6 + 3 + 4 + 2 + 3,
            ),
        ),
        // The first sum: a build side of few rows, or none, with a long set, 2 + 3 + 10 words.
        joined(
            2,
            1,
            case(hub(), spread(7).paired(&[(2, 1)]), &aside, &[0, 3, 1, 11, 0, 3, 2, 11], [10, 10], 15 + 2 * 3),
        ),
        joined(0, 1, case(hub(), spread(0).paired(&[(1, 2), (2, 1)]), &aside, &[], [100, 10], 15)),
        // The second: the same sides exchanged.
        joined(
            1,
            2,
            case(
                hub(),
                spread(7).paired(&[(2, 1)]),
                &[Scan(2), Scan(0), Extend(2), Join],
                &[0, 3, 1, 11, 0, 3, 2, 11],
                [10, 10],
                2 + 1 + 1 + 15 + 4,
            ),
        ),
    ]
}

#[test]
fn worked_cases() {
    let cases = [stated(), longest_sets(), joins()];
    cases.iter().for_each(|cases| hold(cases));
}

/// Plans with two joins and more, in any shape, around their needs and around the lengths at which rows are kept.
#[test]
fn plans_with_several_joins() {
    let [mut tried, mut rows, mut waiting, mut no_builds, mut passes] = [0; 5];
    each(0..12_000, |r| {
        let query = Query::random(r, 8);
        let Some(plan) = plan::bushy(r, &query) else { return };
        let Some(case) = Case::new(Graph::random(r, 12), query, plan, r.chance(1, 2), 2_000) else { return };
        case.compare_lengths(r);
        let segments = case.segments();
        tried += 1;
        rows += case.want.count;
        waiting += usize::from(segments.iter().any(|segment| segment.waiting > 1));
        no_builds += usize::from(case.want.build == 0 && case.want.probe > 0);
        passes += usize::from(segments.iter().any(|segment| segment.turns()[3] > case.want.need));
    });
    let seen = [tried, rows, waiting, no_builds, passes];
    assert!(tried > 3_000 && rows > 10_000 && waiting > 1_500, "{seen:?}");
    assert!(no_builds > 300 && passes > 1_500, "{seen:?}");
}

/// Results of many rows from few words, by a second pass, and from many: the rows are the same.
#[test]
fn many_rows_from_few_words() {
    let (mut rows, mut less) = (0, 0);
    each(0..120, |r| {
        let graph = Graph::random(r, 400);
        let Some(case) = Case::random(r, graph, 5, 60_000) else { return };
        let (need, list) = (case.want.need, case.want.rows.len());
        case.compare(r, need, list);
        let kept = case.segments().iter().map(|segment| segment.turns()[3]).max().unwrap();
        case.compare(r, kept.max(need), list);
        case.compare(r, kept.max(need) + 1_000, list + 1_000);
        rows += case.want.count;
        less += usize::from(10 * need < list);
    });
    assert!(rows > 50_000 && less > 8, "{rows} rows, {less} needs of less than a tenth of the list");
}

/// A vertex with edges to all others, scanned and extended by, in graphs around the size from which the targets of a source take more room.
#[test]
fn a_vertex_next_to_all_others() {
    each(0..1, |r| {
        for n in [1_023, 1_024, 1_025, 65_535] {
            let edges = (1..n).map(|t| (0, 1, t)).chain([(0, 2, n - 1)]).collect();
            let graph = Graph::new(vec![0; n.into()], edges);
            let two = || Query::new(vec![0; 3], vec![(0, 1, 1), (0, 2, 2)]);
            let (all, n) = (usize::from(n) - 1, usize::from(n));
            for (query, plan, rows, need) in [
                (Query::plain(2, &[(0, 1)]), vec![Scan(0)], all, 2),
                (Query::any(2, &[(0, 1)]), vec![Scan(0)], all, 2),
                (two(), vec![Scan(0), Extend(2)], all - 1, 2 + 3 + 1),
                (two(), vec![Scan(1), Extend(1)], all - 1, 2 + 3 + all),
                (two(), vec![Scan(0), Scan(1), Join], all - 1, 2 * all + all + all.next_power_of_two() + 2 + 3),
            ] {
                let case = Case::new(graph.clone(), query, plan, true, n).unwrap();
                assert_eq!((case.want.count, case.want.need), (rows, need));
                let list = case.want.rows.len();
                let kept = case.segments()[0].turns()[3];
                for scratch in [need, need - 1, kept - 1, kept] {
                    case.compare(r, scratch, list);
                }
                case.compare(r, need, list - 1);
            }
        }
    });
}

/// A run over the largest graph, by extends of any label, a join and a list that is found twice, its store check included, in a megabyte of stack.
#[test]
fn a_megabyte_of_stack() {
    let n = 65_535u16;
    let edges = (1..n).flat_map(|t| [(t - 1, 1, t), (t - 1, 2, t)]).collect();
    let store = Store::load(&Graph::new(vec![0; n.into()], edges).file()).unwrap();
    let query = Query::any(8, &(1..8).map(|v| (v - 1, v)).collect::<Vec<_>>()).file();
    let plan = plan::file(&[Scan(0), Extend(2), Extend(3), Extend(4), Scan(4), Extend(6), Extend(7), Join]);
    let run = move || {
        let mut buffers = Buffers::with_words(2_000_000, 8 * usize::from(n));
        store.run_growing(&query, &plan, Cache::On, &mut buffers).map(|matches| matches.len())
    };
    let rows = std::thread::Builder::new().stack_size(1 << 20).spawn(run).unwrap().join().unwrap();
    assert_eq!(rows, Ok(usize::from(n) - 7));
}
