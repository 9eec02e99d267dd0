//! The rows of a table: one work by the three versions, whose answers are compared before.
use crate::cases::{self, Case};
use crate::databases::{Counted, Database};
use crate::files::{self, Answer};
use crate::graphs::Graph;
use crate::measure::{counted, race, Rounds, Times};
use crate::merge;
use crate::same::{self, Needs};
use rizhavaan::{Cache, Record};

/// The words of the largest scratch that a case may need: it is reserved, and used as far as needed.
pub const MOST: usize = 700_000_000;

/// How the versions of a work are measured, of which the engine is the last.
#[derive(Clone, Copy)]
pub enum Meter {
    Timed(Rounds),
    /// Each runs once, for a callgrind that looks on.
    Counted,
}

impl Meter {
    /// With fewer rounds.
    pub fn shorter(self) -> Meter {
        match self {
            Meter::Timed(rounds) => {
                Meter::Timed(Rounds { seconds: rounds.seconds / 3.0, least: rounds.least.min(3), ..rounds })
            }
            Meter::Counted => self,
        }
    }

    pub fn measure<const N: usize>(
        self,
        shape: &str,
        work: &str,
        mut versions: [&mut dyn FnMut(); N],
    ) -> Option<Times<N>> {
        match self {
            Meter::Timed(rounds) => Some(race(rounds, versions)),
            Meter::Counted => {
                println!("{N}\t{shape}\t{work}");
                versions.iter_mut().for_each(|version| counted(version));
                None
            }
        }
    }
}

pub struct Row {
    pub work: String,
    pub rows: Option<usize>,
    /// None where instructions were counted.
    pub times: Option<Times<3>>,
    /// What the databases counted, as in `databases::PROGRAMS`.
    pub counted: [Option<Counted>; 2],
    /// Of a run with the cache on.
    pub memory: Option<Memory>,
}

/// The words that a run takes, and its time in a scratch of just its need beside that in which each row is found once.
pub struct Memory {
    pub needs: Needs,
    pub list: usize,
    pub times: Option<Times<2>>,
}

/// A graph's rows in the making.
pub struct Bench<'b> {
    pub meter: Meter,
    pub shape: String,
    pub graph: &'b Graph,
    pub store: Vec<u32>,
}

/// Run, by one of the three: store, query, plan, cache, scratch, list, records.
type Version = fn(&[u32], &[u8], &[u8], bool, &mut [u32], &mut [u32], &mut [Record]) -> Answer;

/// The engine's answer in the form of the plain versions.
pub fn engine(
    store: &[u32],
    query: &[u8],
    plan: &[u8],
    cache: bool,
    scratch: &mut [u32],
    list: &mut [u32],
    records: &mut [Record],
) -> Answer {
    let cache = if cache { Cache::On } else { Cache::Off };
    match rizhavaan::run(store, query, plan, cache, scratch, list, records) {
        Ok(run) => Answer { refusal: 0, rows: run.rows, cost: run.cost, build: run.build, probe: run.probe },
        Err(refusal) => Answer::refused(refusal.number()),
    }
}

/// What a run needs. The plain version of the engine's algorithm says it, in as much as may be needed.
fn needs(store: &[u32], query: &[u8], plan: &[u8], cache: bool) -> Needs {
    let (mut reserved, mut list) = (vec![0; MOST], vec![0; MOST]);
    let mut records = [Record::default(); rizhavaan::MAX_OPERATORS];
    let (q, p) = (files::query(query), files::plan(plan));
    same::execute(store, &q, &p, cache, &mut reserved, &mut list, &mut records).expect("the case fits").1
}

/// The same, held against the engine's own word on its need.
pub fn checked_needs(store: &[u32], query: &[u8], plan: &[u8], cache: bool) -> Needs {
    let needs = needs(store, query, plan, cache);
    let setting = if cache { Cache::On } else { Cache::Off };
    let count = rizhavaan::count(store, query, plan, setting, &mut vec![0; needs.roomy]).expect("the case fits");
    assert_eq!(count.need, needs.now, "the need is what Count answers");
    needs
}

impl Bench<'_> {
    pub fn row(&self, work: &str, rows: Option<usize>, versions: [&mut dyn FnMut(); 3]) -> Row {
        let times = self.meter.measure(&self.shape, work, versions);
        Row { work: work.into(), rows, times, counted: [None, None], memory: None }
    }

    /// Load, into the store of the rows that follow.
    pub fn load(&mut self) -> Row {
        let file = self.graph.file();
        let mut stores: [Vec<u32>; 3] = std::array::from_fn(|_| self.store.clone());
        let [one, two, three] = &mut stores;
        let row = self.row(
            "Load",
            None,
            [
                &mut || assert_eq!(merge::load(&file, one), 0),
                &mut || assert_eq!(same::load(&file, two), 0),
                &mut || assert!(rizhavaan::load_into(&file, three).is_ok()),
            ],
        );
        assert!(stores[0] == stores[2] && stores[1] == stores[2], "three stores are the same");
        self.store.copy_from_slice(&stores[2]);
        row
    }

    /// The engine checks a store in each run: here one that lists nothing, so that it does little else. It has 100 words of
    /// scratch.
    pub fn check(&self) -> Row {
        let (query, plan) = (cases::nothing().query(), cases::nothing().plan());
        let (store, mut scratch, mut records) = (&self.store, vec![0; 100], [Record::default(); 1]);
        let nothing = Answer { refusal: 0, rows: 0, cost: 0, build: 0, probe: 0 };
        self.row(
            "store check alone",
            None,
            [&mut || assert!(merge::check(store)), &mut || assert!(same::check(store)), &mut || {
                assert_eq!(engine(store, &query, &plan, false, &mut scratch, &mut [], &mut records), nothing)
            }],
        )
    }

    /// Drawing a plan.
    pub fn draw(&self) -> Row {
        let (query, store) = (cases::clique().query(), &self.store);
        let [mut one, mut two, mut three] = [[255; rizhavaan::MAX_DRAWN_BYTES]; 3];
        let answers = [
            merge::draw_plan(store, &query, &mut one),
            same::draw_plan(store, &query, &mut two),
            rizhavaan::draw_plan_into(store, &query, &mut three).map_err(|refusal| refusal.number()),
        ];
        assert!(answers == [Ok(3); 3] && one == two && two == three, "three plans are the same");
        self.row(
            "a plan drawn for the 4-clique",
            None,
            [
                &mut || assert!(merge::draw_plan(store, &query, &mut one).is_ok()),
                &mut || assert!(same::draw_plan(store, &query, &mut two).is_ok()),
                &mut || assert!(rizhavaan::draw_plan_into(store, &query, &mut three).is_ok()),
            ],
        )
    }

    /// Forty changes, half of them additions, into a new store: beside Load of the edited graph, whose words they leave.
    pub fn change(&self) -> Row {
        let (changes, edited) = self.graph.changed(40);
        let old = &self.store;
        let mut loaded = vec![0; files::store_words(edited.labels.len(), edited.edges.len())];
        let counts = rizhavaan::load_into(&edited.file(), &mut loaded).expect("the edited graph is loaded");
        let counts = Ok((counts.vertices, counts.edges));
        let mut stores: [Vec<u32>; 3] = std::array::from_fn(|_| vec![1; loaded.len()]);
        let [one, two, three] = &mut stores;
        let applied = |store: &mut [u32]| {
            let counts = rizhavaan::apply_changes_into(old, &changes, store).map_err(|refusal| refusal.number())?;
            Ok((counts.vertices, counts.edges))
        };
        let row = self.row(
            "forty changes",
            None,
            [
                &mut || assert_eq!(merge::apply_changes(old, &changes, one), counts),
                &mut || assert_eq!(same::apply_changes(old, &changes, two), counts),
                &mut || assert_eq!(applied(three), counts),
            ],
        );
        assert!(stores.iter().all(|store| *store == loaded), "three stores are that of the edited graph");
        row
    }

    /// A run in a scratch of so many words beside one in which each row is found once.
    fn tight(&self, work: &str, words: usize, run: &dyn Fn(Option<usize>)) -> Option<Times<2>> {
        let work = format!("{work}, in just its need");
        self.meter.shorter().measure(&self.shape, &work, [&mut || run(None), &mut || run(Some(words))])
    }

    /// A run in a scratch in which each row is found once and a list of just the words of its rows, which were in use before.
    pub fn run(&self, case: &Case, cache: bool, databases: [Option<&Database>; 2]) -> Row {
        let (store, query, plan) = (&self.store[..], case.query(), case.plan());
        let needs = checked_needs(store, &query, &plan, cache);
        let mut scratch = vec![1; needs.roomy];
        let mut list = vec![0; MOST];
        let mut recorded = [Record::default(); rizhavaan::MAX_OPERATORS];
        let expected = engine(store, &query, &plan, cache, &mut scratch, &mut list, &mut recorded);
        list.truncate(expected.rows * case.width());
        list.shrink_to_fit();
        if let Meter::Timed(_) = self.meter {
            let mut other = vec![1; list.len()];
            for version in [merge::run, same::run] {
                let mut records = [Record::default(); rizhavaan::MAX_OPERATORS];
                let answer = version(store, &query, &plan, cache, &mut scratch, &mut other, &mut records);
                assert_eq!(answer, expected, "{}", case.name);
                assert_eq!(records, recorded, "{}", case.name);
                assert!(other == list, "the rows are the same: {}", case.name);
                other.fill(1);
            }
        }
        let buffers = std::cell::RefCell::new((scratch, list));
        let timed = |version: Version| {
            let (scratch, list) = &mut *buffers.borrow_mut();
            let mut records = [Record::default(); rizhavaan::MAX_OPERATORS];
            assert_eq!(version(store, &query, &plan, cache, scratch, list, &mut records), expected);
        };
        let work = format!("{}, cache {}", case.name, if cache { "on" } else { "off" });
        let mut row = self.row(
            &work,
            Some(expected.rows),
            [&mut || timed(merge::run), &mut || timed(same::run), &mut || timed(engine)],
        );
        row.memory = cache.then(|| Memory {
            times: self.tight(&work, needs.now, &|scratch: Option<usize>| {
                let (room, list) = &mut *buffers.borrow_mut();
                let room = &mut room[..scratch.unwrap_or(needs.roomy)];
                let mut records = [Record::default(); rizhavaan::MAX_OPERATORS];
                assert_eq!(engine(store, &query, &plan, cache, room, list, &mut records), expected);
            }),
            list: expected.rows * case.width(),
            needs: needs.clone(),
        });
        row.counted = databases.map(|database| {
            let counted = database?.count(&case.sql(), 0).expect("the database runs");
            if let Counted::In(count, _) = counted {
                assert_eq!(count, expected.rows as u64, "the database counts the same: {}", case.name);
            }
            Some(counted)
        });
        row
    }
}
