//! What is measured: graphs with their cases.
use crate::cases::{self, Case};
use crate::databases::{Database, PROGRAMS};
use crate::graphs::Shape;
use crate::report::Table;
use crate::rows::{Bench, Meter};

/// A shape, how many edges its graph has, and the work over it.
pub struct Sheet {
    pub shape: Shape,
    pub edges: usize,
    /// The edges of the graph on which instructions are counted; none where another sheet of the shape has them.
    pub small: Option<usize>,
    cases: Vec<Case>,
    caches: &'static [bool],
    /// Whether the databases count the rows too.
    databases: bool,
    /// Whether a plan is drawn and changes are applied.
    draws: bool,
    /// The patterns whose drawn plan is measured beside all orderings.
    pub drawn: Vec<Case>,
}

const BOTH: &[bool] = &[false, true];

const ON: &[bool] = &[true];

/// The sheets whose tables stand by themselves.
pub fn sheets() -> Vec<Sheet> {
    let sheet = |shape, edges, small, cases| Sheet {
        shape,
        edges,
        small: Some(small),
        cases,
        caches: BOTH,
        databases: true,
        draws: false,
        drawn: Vec::new(),
    };
    let one = |power, degree| Shape::PowerLaw(power, 1, degree);
    let three = |power, degree| Shape::PowerLaw(power, 3, degree);
    let rig = cases::of_rig();
    let named = |name: &str| rig.iter().find(|case| case.name == name).expect("a case of the rig").clone();
    vec![
        sheet(one(1.8, 7.62), 500_000, 25_000, cases::by_extends()),
        Sheet {
            draws: true,
            drawn: vec![cases::mixed_triangle(), cases::mixed_tail()],
            ..sheet(three(1.8, 7.62), 500_000, 25_000, cases::of_labels_and_days())
        },
        Sheet {
            databases: false,
            draws: true,
            ..sheet(one(1.8, 16.0), 1_048_575, 25_000, vec![cases::path(), cases::triangle(), cases::clique()])
        },
        sheet(one(1.3, 3.81), 250_000, 60_000, cases::by_joins()),
        sheet(Shape::Slings, 250_000, 25_000, cases::of_slings()),
        Sheet {
            draws: true,
            drawn: vec![named("braced bay"), named("motor on a chain of 3"), cases::two_motors()],
            ..sheet(Shape::Rig, 130_000, 16_000, rig.clone())
        },
        Sheet { draws: true, ..sheet(Shape::Packages(5.5), 357_000, 25_000, vec![cases::package_triangle()]) },
    ]
}

/// The same work on graphs of one shape and several sizes. On the smallest, the databases count too.
pub fn growth() -> Vec<Sheet> {
    let cases = [cases::path(), cases::triangle(), cases::clique()];
    let sizes = [62_500, 250_000, 1_000_000];
    let sheet = |&edges: &usize| Sheet {
        shape: Shape::PowerLaw(1.3, 1, 16.0),
        edges,
        small: (edges == sizes[0]).then_some(16_000),
        cases: cases.iter().cloned().chain(cases::by_joins()).collect(),
        caches: ON,
        databases: edges == sizes[0],
        draws: false,
        drawn: Vec::new(),
    };
    sizes.iter().map(sheet).collect()
}

impl Sheet {
    /// Keeps the cases with a word in their names.
    pub fn keep(&mut self, word: &str) {
        self.cases.retain(|case| case.name.contains(word));
        self.drawn.retain(|case| case.name.contains(word));
    }

    /// On graphs of a tenth of the edges and fewer, by which it is seen whether all of it works.
    pub fn shrink(&mut self) {
        self.edges = self.edges.min(40_000) / 10;
        self.small = self.small.map(|small| small / 10);
    }

    /// Measures the sheet's work on its graph of so many edges; databases have so many seconds a query.
    pub fn table(&self, meter: Meter, edges: usize, database_seconds: Option<f64>) -> Table {
        let graph = self.shape.graph(edges);
        eprintln!("{}", graph.name);
        let store = vec![0; crate::files::store_words(graph.labels.len(), graph.edges.len())];
        let mut bench = Bench { meter, shape: self.shape.name(), graph: &graph, store };
        let mut rows = vec![bench.load(), bench.check()];
        if self.draws {
            rows.extend([bench.draw(), bench.change()]);
        }
        let limit = database_seconds.filter(|_| self.databases);
        let databases = PROGRAMS.map(|program| {
            program.version()?;
            Some(Database::new(program, &graph, limit?).expect("the database takes the graph"))
        });
        for case in &self.cases {
            for &cache in self.caches {
                eprintln!("  {}, cache {cache}", case.name);
                let counts = case.counted && cache == self.caches[0];
                let each = [0, 1].map(|i| databases[i].as_ref().filter(|_| counts));
                rows.push(bench.run(case, cache, each));
            }
        }
        let drawn = match meter {
            Meter::Timed(rounds) => self.drawn.iter().map(|case| crate::drawn::row(rounds, &bench, case)).collect(),
            Meter::Counted => Vec::new(),
        };
        let operations = match (self.cases.first(), self.drawn.first()) {
            (Some(case), Some(pattern)) => bench.operations(case, pattern),
            _ => Vec::new(),
        };
        Table { shape: bench.shape.clone(), graph: graph.name.clone(), rows, drawn, operations }
    }
}
