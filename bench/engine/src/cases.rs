//! Queries with plans, as packed files and as SQL.
use crate::files::{self, Operator};
use crate::graphs::{rig_label, Bits, DAYS};

/// A query edge: from, to, label, 0 for any.
type QueryEdge = (u8, u8, u8);

#[derive(Clone, Copy, PartialEq)]
pub enum Step {
    /// The query edge of an index.
    Scan(usize),
    Extend(u8),
    Join,
}

use Step::{Extend, Join};

/// A query vertex: a label, 0 for any, and a first and a last day.
#[derive(Clone, Copy)]
struct Vertex(u16, u16, u16);

const ANY: Vertex = Vertex(0, 0, 65_535);

#[derive(Clone)]
pub struct Case {
    pub name: String,
    vertices: Vec<Vertex>,
    edges: Vec<QueryEdge>,
    pairs: Vec<(u8, u8)>,
    steps: Vec<Step>,
    /// Whether the databases count it too.
    pub counted: bool,
}

impl Case {
    /// A plan is a scan of an edge and extends; `more` is what follows.
    fn new(name: &str, vertices: usize, mut edges: Vec<QueryEdge>, scan: (u8, u8), more: &[Step]) -> Case {
        edges.sort();
        let vertices = vec![ANY; vertices];
        let mut case = Case { name: name.into(), vertices, edges, pairs: Vec::new(), steps: Vec::new(), counted: true };
        case.steps = [&[case.scan(scan)], more].concat();
        case
    }

    /// A pattern without a plan: of each vertex the label, 0 for any.
    pub fn pattern(name: &str, labels: &[u16], mut edges: Vec<QueryEdge>, pairs: &[(u8, u8)]) -> Case {
        edges.sort();
        let vertices = labels.iter().map(|&label| Vertex(label, 0, 65_535)).collect();
        Case { name: name.into(), vertices, edges, pairs: pairs.to_vec(), steps: Vec::new(), counted: true }
    }

    fn scan(&self, (from, to): (u8, u8)) -> Step {
        Step::Scan(self.edges.iter().position(|e| (e.0, e.1) == (from, to)).expect("a query edge"))
    }

    /// The plan joined with a second one, a scan and an extend, as the probe.
    fn joined(mut self, scan: (u8, u8), extend: u8) -> Case {
        let more = [self.scan(scan), Extend(extend), Join];
        self.steps.extend(more);
        self
    }

    fn named(self, name: &str) -> Case {
        Case { name: name.into(), ..self }
    }

    fn any_label(mut self) -> Case {
        self.edges.iter_mut().for_each(|edge| edge.2 = 0);
        let name = format!("{} of any label", self.name);
        self.named(&name)
    }

    /// Each vertex, or the last alone, with a range of days that a tenth of the items have.
    pub fn in_days(mut self, last_only: bool) -> Case {
        let skipped = if last_only { self.vertices.len() - 1 } else { 0 };
        let end = DAYS as u16 / 2;
        for vertex in &mut self.vertices[skipped..] {
            (vertex.1, vertex.2) = (end + 1 - DAYS as u16 / 10, end);
        }
        let which = if last_only { "last item's day" } else { "every item's day" };
        let name = format!("{}, {which} of a tenth", self.name);
        self.named(&name)
    }

    fn not_counted(self) -> Case {
        Case { counted: false, ..self }
    }

    pub fn width(&self) -> usize {
        self.vertices.len()
    }

    pub fn query(&self) -> Vec<u8> {
        let mut file = Bits::default();
        file.put(self.vertices.len() as u64, 4);
        file.put(self.edges.len() as u64, 5);
        for Vertex(label, first, last) in &self.vertices {
            [label, first, last].into_iter().for_each(|&number| file.put(number.into(), 16));
        }
        for &(from, to, label) in &self.edges {
            file.put(from.into(), 3);
            file.put(to.into(), 3);
            file.put(label.into(), 8);
        }
        file.put(self.pairs.len() as u64, 4);
        for &(low, high) in &self.pairs {
            file.put(low.into(), 3);
            file.put(high.into(), 3);
        }
        file.bytes()
    }

    pub fn plan(&self) -> Vec<u8> {
        let mut file = Bits::default();
        file.put(self.steps.len() as u64, 5);
        for step in &self.steps {
            match *step {
                Step::Scan(edge) => {
                    file.put(0, 2);
                    file.put(edge as u64, 5);
                }
                Extend(vertex) => {
                    file.put(1, 2);
                    file.put(vertex.into(), 3);
                }
                Join => file.put(2, 2),
            }
        }
        file.bytes()
    }

    /// The same query by the plan of a file.
    pub fn with_plan(&self, plan: &[u8]) -> Case {
        let step = |operator: &Operator| match *operator {
            Operator::Scan(edge) => Step::Scan(edge),
            Operator::Extend(vertex) => Extend(vertex as u8),
            Operator::Join => Join,
        };
        Case { steps: files::plan(plan).iter().map(step).collect(), ..self.clone() }
    }

    pub fn joins(&self) -> bool {
        self.steps.contains(&Join)
    }

    /// The plan in words: the scanned edge's ends, then the vertices of the extends.
    pub fn order(&self) -> String {
        let step = |step: &Step| match *step {
            Step::Scan(edge) => format!("{}→{}", self.edges[edge].0, self.edges[edge].1),
            Extend(vertex) => vertex.to_string(),
            Join => "join".into(),
        };
        self.steps.iter().map(step).collect::<Vec<_>>().join(", ")
    }

    /// The same query by every plan of one scan and extends.
    pub fn orderings(&self) -> Vec<Case> {
        let mut found = Vec::new();
        for (i, &(from, to, _)) in self.edges.iter().enumerate() {
            self.extended(vec![Step::Scan(i)], 1 << from | 1 << to, &mut found);
        }
        found
    }

    fn extended(&self, steps: Vec<Step>, covered: u32, found: &mut Vec<Case>) {
        let has = |v: u8| covered >> v & 1 == 1;
        if steps.len() + 1 == self.width() {
            found.push(Case { steps, ..self.clone() });
            return;
        }
        let touches = |v: u8| self.edges.iter().any(|e| e.0 == v && has(e.1) || e.1 == v && has(e.0));
        for v in (0..self.width() as u8).filter(|&v| !has(v) && touches(v)) {
            self.extended([&steps[..], &[Extend(v)]].concat(), covered | 1 << v, found);
        }
    }

    /// The number of matches: one copy of the table e(label, source, target) for each query edge, or of a(source, target) where any label
    /// will do, and one of v(item, label, day) for each vertex that asks something.
    pub fn sql(&self) -> String {
        let column = |i: usize, end: u8| format!("e{i}.{}", if end == 0 { "source" } else { "target" });
        let mut place: Vec<Option<String>> = vec![None; self.vertices.len()];
        let (mut tables, mut tests) = (Vec::new(), Vec::new());
        for (i, &(from, to, label)) in self.edges.iter().enumerate() {
            match label {
                0 => tables.push(format!("a AS e{i}")),
                _ => {
                    tables.push(format!("e AS e{i}"));
                    tests.push(format!("e{i}.label = {label}"));
                }
            }
            for (end, vertex) in [(0, from), (1, to)] {
                match &place[usize::from(vertex)] {
                    None => place[usize::from(vertex)] = Some(column(i, end)),
                    Some(first) => tests.push(format!("{} = {first}", column(i, end))),
                }
            }
        }
        let place: Vec<String> = place.into_iter().map(|place| place.expect("a vertex with an edge")).collect();
        for (i, &Vertex(label, first, last)) in self.vertices.iter().enumerate() {
            if (label, first, last) != (0, 0, 65_535) {
                tables.push(format!("v AS v{i}"));
                tests.push(format!("v{i}.item = {} AND v{i}.day BETWEEN {first} AND {last}", place[i]));
            }
            if label != 0 {
                tests.push(format!("v{i}.label = {label}"));
            }
            place[..i].iter().for_each(|other| tests.push(format!("{other} <> {}", place[i])));
        }
        let pair = |&(low, high): &(u8, u8)| format!("{} < {}", place[usize::from(low)], place[usize::from(high)]);
        tests.extend(self.pairs.iter().map(pair));
        format!("SELECT count(*) FROM {} WHERE {};", tables.join(", "), tests.join(" AND "))
    }
}

/// One edge, from a vertex of a label that no vertex has: it lists nothing.
pub fn nothing() -> Case {
    let mut case = Case::new("nothing", 2, plain(&[(0, 1)]), (0, 1), &[]);
    case.vertices[0].0 = 65_535;
    case
}

fn plain(pairs: &[(u8, u8)]) -> Vec<QueryEdge> {
    pairs.iter().map(|&(a, b)| (a, b, 1)).collect()
}

pub fn path() -> Case {
    Case::new("path of two edges", 3, plain(&[(0, 1), (1, 2)]), (0, 1), &[Extend(2)])
}

pub fn triangle() -> Case {
    Case::new("triangle", 3, plain(&[(0, 1), (0, 2), (1, 2)]), (0, 1), &[Extend(2)])
}

/// Of packages: three of which each depends on the next, and the first on the last, in the common way.
pub fn package_triangle() -> Case {
    Case::new("triangle of label 3", 3, vec![(0, 1, 3), (0, 2, 3), (1, 2, 3)], (0, 1), &[Extend(2)])
}

pub fn mixed_triangle() -> Case {
    let edges = vec![(0, 1, 1), (0, 2, 2), (1, 2, 3)];
    Case::new("triangle of labels 1, 2, 3", 3, edges, (0, 1), &[Extend(2)])
}

fn diamond() -> Case {
    let edges = plain(&[(0, 1), (0, 2), (1, 2), (1, 3), (2, 3)]);
    Case::new("diamond with a chord", 4, edges, (1, 2), &[Extend(0), Extend(3)])
}

fn tailed_triangle() -> Case {
    let edges = plain(&[(0, 1), (0, 2), (1, 2), (2, 3)]);
    Case::new("tailed triangle", 4, edges, (0, 1), &[Extend(2), Extend(3)])
}

/// A tailed triangle whose edges have labels of different counts.
pub fn mixed_tail() -> Case {
    let edges = vec![(0, 1, 1), (0, 2, 1), (1, 2, 2), (2, 3, 3)];
    Case::new("tailed triangle of labels 1, 1, 2, 3", 4, edges, (0, 1), &[Extend(2), Extend(3)])
}

pub fn clique() -> Case {
    let edges = plain(&[(0, 1), (0, 2), (0, 3), (1, 2), (1, 3), (2, 3)]);
    Case::new("4-clique", 4, edges, (0, 1), &[Extend(2), Extend(3)])
}

pub fn cycle() -> Case {
    let edges = plain(&[(0, 1), (1, 2), (2, 3), (3, 0)]);
    Case::new("4-cycle by a join of two paths", 4, edges, (0, 1), &[Extend(2)]).joined((2, 3), 0)
}

pub fn bowtie() -> Case {
    let edges = plain(&[(0, 1), (0, 2), (1, 2), (0, 3), (0, 4), (3, 4)]);
    Case::new("two triangles sharing a vertex, by a join", 5, edges, (0, 1), &[Extend(2)]).joined((0, 3), 4)
}

/// The cases by extends alone, whose rows fit memory even where hubs are large.
pub fn by_extends() -> Vec<Case> {
    vec![path(), triangle(), diamond(), tailed_triangle(), clique()]
}

pub fn by_joins() -> Vec<Case> {
    vec![cycle(), bowtie()]
}

/// Labels: all three, one of them, any. Days of a tenth of the items.
pub fn of_labels_and_days() -> Vec<Case> {
    vec![
        path(),
        triangle(),
        clique(),
        mixed_triangle(),
        path().any_label(),
        triangle().any_label(),
        path().in_days(true).not_counted(),
        path().in_days(false),
        triangle().in_days(true),
    ]
}

/// The triangle of equal slings, each in both directions, with and without pairs.
pub fn of_slings() -> Vec<Case> {
    let edges = plain(&[(0, 1), (1, 0), (0, 2), (2, 0), (1, 2), (2, 1)]);
    let slings = Case::new("triangle of equal slings", 3, edges, (0, 1), &[Extend(2)]);
    let ordered = Case { pairs: vec![(0, 1), (1, 2)], ..slings.clone() }.named("triangle of equal slings, in one turn");
    vec![slings, ordered]
}

/// Two motors below one truss. Its plan covers one of them and the bays between.
pub fn two_motors() -> Case {
    use rig_label::*;
    let edges = vec![(0, 1, BOTTOM), (1, 2, BOTTOM), (2, 3, BOTTOM), (0, 4, HANGS), (3, 5, HANGS)];
    Case::new("two motors, three bays apart", 6, edges, (0, 4), &[Extend(1), Extend(2)])
}

/// The cases of a rig.
pub fn of_rig() -> Vec<Case> {
    use rig_label::*;
    // 0 and 1 are top joints of a bay, 3 and 2 the bottom ones below them.
    let bay = vec![(0, 1, TOP), (0, 3, POST), (1, 2, POST), (3, 2, BOTTOM), (0, 2, BRACE)];
    let chain = vec![(0, 1, HANGS), (1, 2, LINK), (2, 3, LINK), (3, 4, LINK)];
    let braced = Case::new("braced bay", 4, bay, (0, 2), &[Extend(1)]);
    let by_join = braced.clone().named("braced bay by a join").joined((0, 2), 3);
    let chain = Case::new("motor on a chain of 3", 5, chain, (0, 1), &[Extend(2), Extend(3), Extend(4)]);
    vec![
        Case::new("half a bay", 3, vec![(0, 1, TOP), (0, 2, BRACE), (1, 2, POST)], (0, 1), &[Extend(2)]),
        Case { steps: [&braced.steps[..], &[Extend(3)]].concat(), ..braced },
        by_join,
        chain.clone(),
        chain.in_days(true),
        two_motors().named("two motors, three bays apart, by a join").joined((3, 5), 2),
        path().any_label(),
        triangle().any_label(),
    ]
}
