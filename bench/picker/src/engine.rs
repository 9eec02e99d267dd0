//! Runs of the engine, timed, in scratch and list of about the words that they need.
use crate::clock;
use crate::picker::{pack, Operator};
use rizhavaan::{check_plan, run, Cache, Record, Refusal, Store};

/// The processor time of this process so far, in nanoseconds.
pub fn now() -> f64 {
    clock::now() * 1e9
}

/// A graph's store, and buffers for its runs.
pub struct Engine {
    pub store: Store,
    scratch: Vec<u32>,
    list: Vec<u32>,
    /// Scratch and list are not made longer than this.
    most: usize,
    /// The longest list of any vertex, or all vertices.
    longest: usize,
}

/// A plan that was run once: the words in which it finds each row once, and what it answered.
#[derive(Clone, Debug)]
pub struct Fitted {
    pub plan: Vec<u8>,
    scratch: usize,
    list: usize,
    pub rows: usize,
    pub records: Vec<Record>,
}

/// The words of scratch in which a run finds each row once: below are the build sides with their tables, then the rows of
/// the segment that is streamed, and above them as many sets of the longest list as it has stages.
fn once_words(plan: &[Operator], edges: &[u32], records: &[Record], longest: usize) -> usize {
    let mut builds: Vec<(u32, usize)> = Vec::new();
    let mut most = 0;
    let mut from = 0;
    while from < plan.len() {
        let stages = plan[from + 1..].iter().take_while(|operator| !matches!(operator, Operator::Scan(_)));
        let top: usize = builds.iter().map(|build| build.1).sum();
        let mut set = match plan[from] {
            Operator::Scan(i) => edges[i],
            _ => panic!("a segment begins with a scan"),
        };
        let left = stages.clone().count();
        for stage in stages {
            set |= match *stage {
                Operator::Extend(v) => 1 << v,
                _ => builds.pop().expect("a build side").0,
            };
        }
        from += 1 + left;
        let rows = records[from - 1].rows as usize;
        let words = rows * set.count_ones() as usize;
        most = most.max(top + words + left * longest);
        builds.push((set, words + rows + rows.next_power_of_two()));
    }
    most + 64
}

/// The longest list of any vertex of a store, or all vertices.
fn longest_list(words: &[u32]) -> usize {
    let (n, m) = (words[0] as usize, words[1] as usize);
    let side = |from: usize| words[from..from + n + 1].windows(2).map(|two| (two[1] - two[0]) as usize).max();
    let forward = 2 + 2 * n;
    side(forward).max(side(forward + n + 1 + m)).unwrap_or(0).min(n)
}

impl Engine {
    pub fn new(store: Store, most: usize) -> Engine {
        let longest = longest_list(store.words());
        Engine { store, scratch: Vec::new(), list: Vec::new(), most, longest }
    }

    /// Runs a plan until its buffers are long enough, beginning with so many words of scratch and list;
    /// nothing where they would be longer than is allowed. `edges` are the ends of the query's edges, as
    /// sets.
    pub fn fit(
        &mut self,
        query: &[u8],
        edges: &[u32],
        plan: &[Operator],
        mut scratch: usize,
        mut list: usize,
    ) -> Option<Fitted> {
        let bytes = pack(plan);
        assert_eq!(check_plan(query, &bytes), Ok(plan.len()), "the plan is accepted");
        let mut records = vec![Record::default(); plan.len()];
        let answer = loop {
            self.grow(scratch, list);
            let (lent, rows) = (&mut self.scratch[..scratch], &mut self.list[..list]);
            match run(self.store.words(), query, &bytes, Cache::On, lent, rows, &mut records) {
                Ok(answer) => break answer,
                Err(Refusal::ScratchSmall) if 4 * scratch <= self.most => scratch *= 4,
                Err(Refusal::ListSmall) if 4 * list <= self.most => list *= 4,
                Err(Refusal::ScratchSmall | Refusal::ListSmall) => return None,
                Err(other) => panic!("{other}"),
            }
        };
        let width = usize::from(query[0] >> 4);
        let once = once_words(plan, edges, &records, self.longest);
        if once > self.most {
            return None;
        }
        let scratch = scratch.max(once);
        let list = list.min(answer.rows * width);
        Some(Fitted { plan: bytes, scratch, list, rows: answer.rows, records })
    }

    fn grow(&mut self, scratch: usize, list: usize) {
        self.scratch.resize(self.scratch.len().max(scratch), 0);
        self.list.resize(self.list.len().max(list), 0);
    }

    /// The processor time of one run, in nanoseconds.
    pub fn time(&mut self, query: &[u8], fitted: &Fitted) -> f64 {
        self.grow(fitted.scratch, fitted.list);
        let mut records = vec![Record::default(); fitted.records.len()];
        let (lent, rows) = (&mut self.scratch[..fitted.scratch], &mut self.list[..fitted.list]);
        let start = now();
        let answer = run(self.store.words(), query, &fitted.plan, Cache::On, lent, rows, &mut records);
        let took = now() - start;
        assert_eq!(answer.map(|answer| answer.rows), Ok(fitted.rows), "the run is as before");
        took
    }

    /// The rows of a plan, sorted; nothing where they are more than fit.
    pub fn sorted_rows(&mut self, query: &[u8], fitted: &Fitted) -> Vec<Vec<u32>> {
        self.time(query, fitted);
        let width = usize::from(query[0] >> 4);
        let mut rows: Vec<Vec<u32>> =
            self.list[..fitted.rows * width].chunks(width).map(<[u32]>::to_vec).collect();
        rows.sort();
        rows
    }
}
