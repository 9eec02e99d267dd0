//! Different query vertices take different data vertices: cases worked by hand. Each is run in every scratch up to its need.
use judge::cases::{case, hold, joined, Worked};
use judge::graph::{Edge, Graph};
use judge::plan::Operator;
use judge::query::Query;
use judge::worked::{graph, pin, star};
use Operator::{Extend, Join, Scan};

/// The path through so many vertices.
fn path(n: usize) -> Query {
    Query::plain(n, &(1..n).map(|v| (v - 1, v)).collect::<Vec<_>>())
}

/// 0→1, 1→2 and so on, and back to 0.
fn ring(n: u16) -> Graph {
    graph(n.into(), &(0..n).map(|v| (v, (v + 1) % n)).collect::<Vec<_>>())
}

/// An edge of label 1, and one of label 2 from its end.
fn two_labels() -> Query {
    Query::new(vec![0; 3], vec![(0, 1, 1), (1, 2, 2)])
}

/// Edges 0→1, 0→2 and so on of label 1; from the ends so many of label 2, to vertices 4 and on.
fn fan(labels: Vec<u16>, ends: &[u16]) -> Graph {
    let mut edges: Vec<Edge> = Vec::new();
    for (i, &count) in ends.iter().enumerate() {
        let end = 1 + i as u16;
        edges.push((0, 1, end));
        edges.extend((0..count).map(|t| (end, 2, 4 + t)));
    }
    Graph::new(labels, edges)
}

fn struck_by_scans() -> Vec<Worked> {
    let loops = || graph(2, &[(0, 0), (0, 1), (1, 0), (1, 1)]);
    vec![
        case(loops(), Query::plain(2, &[(0, 1)]), &[Scan(0)], &[0, 1, 1, 0], [0, 0], 2),
        case(loops(), Query::plain(2, &[(0, 1), (1, 0)]), &[Scan(1)], &[1, 0, 0, 1], [0, 0], 2),
        case(loops(), Query::any(2, &[(0, 1)]), &[Scan(0)], &[0, 1, 1, 0], [0, 0], 2),
        // The one-vertex case of the document.
        case(
            graph(1, &[(0, 0)]),
            Query::plain(3, &[(0, 1), (0, 2), (1, 2)]),
            &[Scan(0), Extend(2)],
            &[],
            [0, 0],
            2 + 3,
        ),
    ]
}

fn struck_by_extends() -> Vec<Worked> {
    // 0→1, 1→0, 1→2.
    let back = || graph(3, &[(0, 1), (1, 0), (1, 2)]);
    // Eight rows, each beginning a place further in the ring.
    let turned: [u32; 64] = std::array::from_fn(|i| ((i / 8 + i % 8) % 8) as u32);
    vec![
        // Two motors on one pin, and one alone. A set is kept with all its vertices: the first row strikes 1 from it, the second 2.
        case(pin(2), star(3), &[Scan(0), Extend(2)], &[0, 1, 2, 0, 2, 1], [4, 2], 2 + 3 + 2),
        case(pin(1), star(3), &[Scan(0), Extend(2)], &[], [1, 1], 2 + 3 + 1),
        // Three motors: every order of them. Then a pattern of four.
        case(
            pin(3),
            star(4),
            &[Scan(0), Extend(2), Extend(3)],
            &[0, 1, 2, 3, 0, 1, 3, 2, 0, 2, 1, 3, 0, 2, 3, 1, 0, 3, 1, 2, 0, 3, 2, 1],
            [9 + 18, 3 + 3],
            2 + (3 + 3) + (4 + 3),
        ),
        case(
            pin(3),
            star(5),
            &[Scan(0), Extend(2), Extend(3), Extend(4)],
            &[],
            [9 + 18 + 18, 3 + 3 + 3],
            2 + (3 + 3) + (4 + 3) + (5 + 3),
        ),
        // The vertex of a column that no edge leads to: the row (0, 1) has the set 0, 2.
        case(back(), path(3), &[Scan(0), Extend(2)], &[0, 1, 2], [2 + 1, 2 + 1], 2 + 3 + 2),
        // The rows (1, 0) and (1, 2) of vertices 1 and 2 have the set 0; the first strikes it, the second takes it.
        case(back(), path(3), &[Scan(1), Extend(0)], &[0, 1, 2], [1 + 1 + 1, 1 + 1], 2 + 3 + 1),
        // Seven in a ring are no path of eight: the last extend, by either end, finds the vertex of the other one.
        case(
            ring(7),
            path(8),
            &[Scan(0), Extend(2), Extend(3), Extend(4), Extend(5), Extend(6), Extend(7)],
            &[],
            [6 * 7; 2],
            2 + (3 + 4 + 5 + 6 + 7 + 8) + 6,
        ),
        case(
            ring(7),
            path(8),
            &[Scan(6), Extend(5), Extend(4), Extend(3), Extend(2), Extend(1), Extend(0)],
            &[],
            [6 * 7; 2],
            2 + (3 + 4 + 5 + 6 + 7 + 8) + 6,
        ),
        case(
            ring(8),
            path(8),
            &[Scan(0), Extend(2), Extend(3), Extend(4), Extend(5), Extend(6), Extend(7)],
            &turned,
            [6 * 8; 2],
            2 + (3 + 4 + 5 + 6 + 7 + 8) + 6,
        ),
        // Edges beyond the pattern's are allowed: three vertices joined both ways.
        case(
            graph(3, &[(0, 1), (0, 2), (1, 0), (1, 2), (2, 0), (2, 1)]),
            path(3),
            &[Scan(0), Extend(2)],
            &[0, 1, 2, 0, 2, 1, 1, 0, 2, 1, 2, 0, 2, 0, 1, 2, 1, 0],
            [12, 12],
            2 + 3 + 2,
        ),
    ]
}

fn struck_by_joins() -> Vec<Worked> {
    vec![
        // (1, 0) with (0, 1), and (0, 1) with (1, 0), come back to where they began.
        joined(
            3,
            3,
            case(
                graph(3, &[(0, 1), (1, 0), (1, 2)]),
                path(3),
                &[Scan(0), Scan(1), Join],
                &[0, 1, 2],
                [0, 0],
                6 + 3 + 4 + 2 + 3,
            ),
        ),
        // Build rows 0 1 2, 1 2 3, 2 3 0, 3 0 1 of vertices 0, 1, 2 and the same as probe rows of 2, 3, 4: the last would be the first.
        joined(
            4,
            4,
            case(ring(4), path(5), &[Scan(0), Extend(2), Scan(2), Extend(4), Join], &[], [8, 8], 12 + 4 + 4 + 6 + 5),
        ),
        // Of five in the ring, all begin somewhere.
        joined(
            5,
            5,
            case(
                ring(5),
                path(5),
                &[Scan(0), Extend(2), Scan(2), Extend(4), Join],
                &[3, 4, 0, 1, 2, 4, 0, 1, 2, 3, 0, 1, 2, 3, 4, 1, 2, 3, 4, 0, 2, 3, 4, 0, 1],
                [10, 10],
                15 + 5 + 8 + 6 + 5,
            ),
        ),
    ]
}

/// What the need counts of sets: the longest of an extend's, wherever it came.
fn longest_sets() -> Vec<Worked> {
    let three = [Scan(0), Extend(2)];
    vec![
        // Sets of 3, 1 and 1.
        case(
            fan(vec![0; 7], &[3, 1, 1]),
            two_labels(),
            &three,
            &[0, 1, 4, 0, 1, 5, 0, 1, 6, 0, 2, 4, 0, 3, 4],
            [5, 5],
            2 + 3 + 3,
        ),
        // The longest comes last.
        case(
            fan(vec![0; 7], &[1, 1, 3]),
            two_labels(),
            &three,
            &[0, 1, 4, 0, 2, 4, 0, 3, 4, 0, 3, 5, 0, 3, 6],
            [5, 5],
            2 + 3 + 3,
        ),
        // The only set there is gives no row: 1 leads to 0 alone, and 2 to nothing.
        case(
            Graph::new(vec![0; 3], vec![(0, 1, 1), (0, 1, 2), (1, 2, 0)]),
            two_labels(),
            &three,
            &[],
            [1, 1],
            2 + 3 + 1,
        ),
        // Vertex labels are tested before the set is counted: of three only 4 has label 5.
        case(
            fan(vec![0, 0, 0, 0, 5, 0, 0], &[3]),
            Query { labels: vec![0, 0, 5], ..two_labels() },
            &three,
            &[0, 1, 4],
            [3, 3],
            2 + 3 + 1,
        ),
        // Each extend has its own longest set: 2, and 1.
        case(
            Graph::new(vec![0; 7], vec![(0, 1, 1), (1, 2, 3), (1, 2, 4), (3, 3, 5), (4, 3, 6)]),
            Query::new(vec![0; 4], vec![(0, 1, 1), (1, 2, 2), (2, 3, 3)]),
            &[Scan(0), Extend(2), Extend(3)],
            &[0, 1, 3, 5, 0, 1, 4, 6],
            [2 + 2, 2 + 2],
            2 + (3 + 2) + (4 + 1),
        ),
    ]
}

#[test]
fn worked_cases() {
    [struck_by_scans(), struck_by_extends(), struck_by_joins(), longest_sets()].iter().for_each(|cases| hold(cases));
}
