//! A store that owns its words, and the matches of a run.
use crate::operator::Operators;
use crate::{apply_changes_into, bounds, count, draw_plan_into, find, load_into, run};
use crate::{Bounds, Cache, Count, Record, Refusal, Run, Work, MAX_DRAWN_BYTES};

/// A loaded graph: the words that the engine reads.
#[derive(Clone, Debug, PartialEq, Eq)]
pub struct Store {
    words: Vec<u32>,
}

/// How many words the store of a graph file needs: 4 N + 2 M + 4, by the file's first 36 bits. A file too short to have them is
/// refused, whatever the store.
fn words_for(file: &[u8]) -> usize {
    let Some(head) = file.first_chunk::<5>() else { return 0 };
    let [a, b, c, d, e] = head.map(usize::from);
    let vertices = a << 8 | b;
    let edges = c << 12 | d << 4 | e >> 4;
    if file.len() < 5 + 4 * vertices + 5 * edges {
        return 0;
    }
    store_words(vertices, edges)
}

fn store_words(vertices: usize, edges: usize) -> usize {
    4 * vertices + 2 * edges + 4
}

/// How many changes a change file holds, by its first 20 bits. A file too short to have them is refused, whatever the store.
fn changes_in(file: &[u8]) -> usize {
    let Some(head) = file.first_chunk::<3>() else { return 0 };
    let [a, b, c] = head.map(usize::from);
    let count = a << 12 | b << 4 | c >> 4;
    if file.len() < (20 + 41 * count).div_ceil(8) {
        return 0;
    }
    count
}

impl Store {
    /// Loads a graph file into a store of just the words that it needs.
    pub fn load(file: &[u8]) -> Result<Store, Refusal> {
        let mut words = vec![0; words_for(file)];
        load_into(file, &mut words)?;
        Ok(Store { words })
    }

    /// The store of this graph after the changes of a file, of just the words that it needs: what [`Store::load`] makes of a file of the
    /// edited graph. This one stays as it is.
    ///
    /// The file holds a count (20 bits), then for each change a bit, 1 to add and 0 to take away, and an edge of source (16), label (8) and
    /// target (16), strictly ascending by edge. An edge that is added must be absent, and one that is taken away present
    /// ([`Refusal::ChangesEdge`]).
    pub fn changed(&self, changes: &[u8]) -> Result<Store, Refusal> {
        // Each change adds an edge at most, and an edge takes two words.
        let mut words = vec![0; self.words.len() + 2 * changes_in(changes)];
        let edited = apply_changes_into(&self.words, changes, &mut words)?;
        words.truncate(store_words(edited.vertices, edited.edges));
        Ok(Store { words })
    }

    /// A store of words that were loaded before. They are not looked at here: a run refuses words that no graph file loads to
    /// ([`Refusal::StoreDamaged`]).
    pub fn from_words(words: Vec<u32>) -> Store {
        Store { words }
    }

    /// The words of the store.
    pub fn words(&self) -> &[u32] {
        &self.words
    }

    /// The words of the store, for keeping elsewhere.
    pub fn into_words(self) -> Vec<u32> {
        self.words
    }

    /// How many vertices the graph has, as the store says.
    pub fn vertices(&self) -> usize {
        self.words.first().map_or(0, |&n| n as usize)
    }

    /// How many edges the graph has, as the store says.
    pub fn edges(&self) -> usize {
        self.words.get(1).map_or(0, |&m| m as usize)
    }

    /// Draws a plan for a query: the scan of the query edge whose label has the fewest edges here, and extends by the vertex with the
    /// most query edges to the covered ones.
    pub fn draw_plan(&self, query: &[u8]) -> Result<Vec<u8>, Refusal> {
        let mut plan = vec![0; MAX_DRAWN_BYTES];
        let bytes = draw_plan_into(&self.words, query, &mut plan)?;
        plan.truncate(bytes);
        Ok(plan)
    }

    /// Bounds a plan without a run: what to set aside for it.
    pub fn bounds(&self, query: &[u8], plan: &[u8]) -> Result<Bounds, Refusal> {
        bounds(&self.words, query, plan)
    }

    /// Counts what a run of a plan would answer, in a scratch of the caller's, whose length decides whether it is refused: the matches, what it
    /// takes to find them, and the scratch that a run needs. Nothing is listed.
    pub fn count(&self, query: &[u8], plan: &[u8], cache: Cache, scratch: &mut [u32]) -> Result<Count, Refusal> {
        count(&self.words, query, plan, cache, scratch)
    }

    /// Draws a plan in bytes of the caller's, of which [`MAX_DRAWN_BYTES`] are always enough, and runs it in scratch, list and records of the
    /// caller's, as [`Store::run`] does.
    pub fn find<'l>(
        &self,
        query: &[u8],
        plan: &'l mut [u8],
        cache: Cache,
        scratch: &mut [u32],
        list: &'l mut [u32],
        records: &'l mut [Record],
    ) -> Result<Matches<'l>, Refusal> {
        let found = find(&self.words, query, plan, cache, scratch, list, records)?;
        Ok(Matches::new(query, &plan[..found.bytes], found.run, list, records))
    }

    /// Runs a plan in scratch, list and records of the caller's, whose lengths decide whether it is refused.
    pub fn run<'l>(
        &self,
        query: &[u8],
        plan: &'l [u8],
        cache: Cache,
        scratch: &mut [u32],
        list: &'l mut [u32],
        records: &'l mut [Record],
    ) -> Result<Matches<'l>, Refusal> {
        let answer = run(&self.words, query, plan, cache, scratch, list, records)?;
        Ok(Matches::new(query, plan, answer, list, records))
    }
}

/// How many words a row has: the number of the query's vertices, the first 4 bits of its file.
pub(crate) fn width(query: &[u8]) -> usize {
    usize::from(query[0] >> 4)
}

/// The matches of an accepted run: rows of the borrowed list. Beside them stands what each operator did.
#[derive(Clone, Copy, Debug, PartialEq, Eq)]
pub struct Matches<'l> {
    words: &'l [u32],
    width: usize,
    plan: &'l [u8],
    records: &'l [Record],
    /// The lengths of the neighbour lists that the extends intersected, together.
    pub cost: u64,
    /// Build rows over all joins.
    pub build: u64,
    /// Probe rows over all joins.
    pub probe: u64,
}

impl<'l> Matches<'l> {
    /// Of an accepted run of a query and a plan.
    pub(crate) fn new(
        query: &[u8],
        plan: &'l [u8],
        answer: Run,
        list: &'l [u32],
        records: &'l [Record],
    ) -> Matches<'l> {
        let width = width(query);
        let Run { rows, cost, build, probe } = answer;
        Matches { words: &list[..rows * width], width, plan, records, cost, build, probe }
    }

    /// What each operator did, in the plan's order. The costs add up to the run's, and the last operator's rows are the matches.
    pub fn work(&self) -> impl Iterator<Item = Work> + 'l {
        Operators::of(self.plan).zip(self.records).map(|(operator, &record)| Work::new(operator, record))
    }

    /// How many matches there are.
    pub fn len(&self) -> usize {
        self.words.len() / self.width
    }

    /// Whether there is none.
    pub fn is_empty(&self) -> bool {
        self.words.is_empty()
    }

    /// How many words a match has: one for each query vertex.
    pub fn width(&self) -> usize {
        self.width
    }

    /// The matches in the plan's order, each the data vertices of query vertices 0, 1, ...
    pub fn rows(&self) -> impl ExactSizeIterator<Item = &'l [u32]> + DoubleEndedIterator + Clone + 'l {
        self.words.chunks_exact(self.width)
    }

    /// The words of all matches, one match after the other.
    pub fn words(&self) -> &'l [u32] {
        self.words
    }
}
