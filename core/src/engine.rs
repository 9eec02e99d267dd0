//! The proved engine as this library sees it: the operations over lent buffers, and buffers that grow.
//!
//! A shell lends the engine in: the program over the wrapper in `bindings/rust/`, the page over the same functions as WebAssembly.

use crate::picker::store::Store;

/// The number of a refusal.
#[derive(Clone, Copy, Debug, PartialEq, Eq)]
pub struct Refusal(pub u32);

/// What a run records of one operator.
#[repr(C)]
#[derive(Clone, Copy, Debug, Default, PartialEq, Eq)]
pub struct Record {
    pub rows: u64,
    pub cost: u64,
}

/// The numbers of an accepted run.
#[derive(Clone, Copy, Debug, Default, PartialEq, Eq)]
pub struct Answer {
    pub rows: u64,
    pub cost: u64,
    pub build: u64,
    pub probe: u64,
}

/// What a count answers: what a run would, and the words of scratch that it would need.
#[derive(Clone, Copy, Debug, Default, PartialEq, Eq)]
pub struct Counted {
    pub answer: Answer,
    pub need: u64,
}

/// What no run of a plan passes; a number too large for 64 bits is the largest of them.
#[derive(Clone, Copy, Debug, PartialEq, Eq)]
pub struct Bounds {
    pub list_words: u64,
    pub scratch_words: u64,
    pub cost: u64,
    /// The rows of any operator.
    pub largest: u64,
}

/// What a run writes to: scratch, the list for its rows, and records for its operators.
pub struct Lent<'l> {
    pub scratch: &'l mut [u32],
    pub list: &'l mut [u32],
    pub records: &'l mut [Record],
}

/// The operations of the static library, each over slices that the caller lends.
pub trait Engine: Sync {
    /// Load: vertices and edges.
    fn load(&self, file: &[u8], store: &mut [u32]) -> Result<(u64, u64), Refusal>;

    /// Apply changes: vertices and edges afterwards.
    fn apply_changes(&self, old: &[u32], changes: &[u8], store: &mut [u32]) -> Result<(u64, u64), Refusal>;

    /// Draw plan: how many bytes were written.
    fn draw_plan(&self, store: &[u32], query: &[u8], plan: &mut [u8]) -> Result<u64, Refusal>;

    /// Bounds of a plan. A shell whose engine has none leaves it.
    fn bounds(&self, store: &[u32], query: &[u8], plan: &[u8]) -> Result<Bounds, Refusal> {
        let _ = (store, query, plan);
        Err(Refusal(19))
    }

    /// Run, with the cache on.
    fn run(&self, store: &[u32], query: &[u8], plan: &[u8], lent: Lent) -> Result<Answer, Refusal>;

    /// All orderings: how many there are. A shell that lists none leaves it.
    fn orderings(&self, store: &[u32], query: &[u8], scratch: &mut [u32], words: &mut [u32]) -> Result<u64, Refusal> {
        let _ = (store, query, scratch, words);
        Err(Refusal(32))
    }

    /// Count, with the cache on: what a run would answer, in a scratch alone. A shell that lists every row leaves it.
    fn count(&self, store: &[u32], query: &[u8], plan: &[u8], scratch: &mut [u32]) -> Option<Result<Counted, Refusal>> {
        let _ = (store, query, plan, scratch);
        None
    }

    /// One page of a list: how many there are. A shell that prints no pages leaves it.
    fn page(&self, list: &[u32], width: usize, rows: usize, page: u64, bytes: &mut [u8]) -> Result<u64, Refusal> {
        let _ = (list, width, rows, page, bytes);
        Err(Refusal(35))
    }
}

/// The bytes of a page: 60 lines of 80 columns, each with a line feed.
pub const PAGE_BYTES: usize = 4_860;

/// The most operators that a plan has.
pub const MAX_OPERATORS: usize = 31;

/// A drawn plan has no more bytes than this.
pub const MAX_DRAWN_BYTES: usize = 6;

/// All orderings are listed for patterns of at most so many vertices.
pub const MAX_ORDERED_VERTICES: usize = 5;

/// As many words serve every list of orderings.
pub const MAX_ORDERING_WORDS: usize = 864;

/// Scratch or a list longer than this counts as this long.
pub const MAX_WORDS: usize = 1 << 30;

/// How many words the store of a graph has.
pub fn store_words(vertices: usize, edges: usize) -> usize {
    4 * vertices + 2 * edges + 4
}

/// Why a run has no answer.
#[derive(Clone, Copy, Debug, PartialEq, Eq)]
pub enum NoRun {
    Refused(Refusal),
    /// Scratch and list would take more bytes than are allowed: so many words where the rows were counted, else more than these.
    Memory {
        scratch: usize,
        list: usize,
        counted: bool,
    },
}

/// A run that was accepted, or counted: then list and records are empty.
#[derive(Clone, Debug)]
pub struct Ran {
    pub answer: Answer,
    /// The rows, one word for each vertex of the query.
    pub list: Vec<u32>,
    pub records: Vec<Record>,
}

/// Words that a run begins with. The engine clears the whole scratch, so that it is not lent more than needed.
const FIRST_WORDS: usize = 1 << 14;

/// The buffers that a run begins with, in words.
#[derive(Clone, Copy, Debug, PartialEq, Eq)]
pub struct First {
    pub scratch: usize,
    pub list: usize,
}

impl Default for First {
    fn default() -> First {
        First { scratch: FIRST_WORDS, list: FIRST_WORDS }
    }
}

/// A bound of at most so many words is set aside at once.
const LITTLE: u64 = 1 << 20;

/// Words of scratch besides its need in which a run finds a list of so many words once and not twice: its first pass keeps the rows beside as
/// many words as the sets of its extends could have, each no more than the longest list of the store. For long lists fresh memory takes longer
/// than that.
fn room(store: &[u32], width: usize, list: usize) -> usize {
    if list as u64 > LITTLE {
        return 0;
    }
    list + width.saturating_sub(2) * Store::of(store).map_or(0, |store| store.longest_list())
}

impl First {
    /// The bounds of a plan where they are little, so that it is run once; else as before.
    pub fn bounded(self, bounds: &Bounds) -> First {
        let words = |bound: u64, thought: usize| if bound <= LITTLE { bound as usize } else { thought };
        First { scratch: words(bounds.scratch_words, self.scratch), list: words(bounds.list_words, self.list) }
    }

    /// No smaller than by default, and each at most an eighth of so many bytes: what one of them has and does not
    /// need, the other lacks.
    fn within(self, memory: usize) -> First {
        let most = (memory / 32).min(MAX_WORDS).max(FIRST_WORDS);
        First { scratch: self.scratch.max(FIRST_WORDS).min(most), list: self.list.max(FIRST_WORDS).min(most) }
    }
}

/// Runs a plan in buffers that grow until it fits, within so many bytes.
pub fn run_growing(
    engine: &dyn Engine,
    store: &[u32],
    query: &[u8],
    plan: &[u8],
    width: usize,
    memory: usize,
    first: First,
) -> Result<Ran, NoRun> {
    let first = first.within(memory);
    let left = (memory / 4).saturating_sub(first.scratch + first.list);
    let mut scratch = vec![0; first.scratch + room(store, width, first.list).min(left)];
    let mut list = vec![0; first.list];
    let mut records = vec![Record::default(); MAX_OPERATORS];
    loop {
        let lent = Lent { scratch: &mut scratch, list: &mut list, records: &mut records };
        let answer = engine.run(store, query, plan, lent);
        let (grown, other) = match answer {
            Ok(answer) => {
                drop(scratch);
                list.truncate(answer.rows as usize * width);
                return Ok(Ran { answer, list, records });
            }
            Err(Refusal(20)) if scratch.len() < MAX_WORDS => (&mut scratch, &list),
            Err(Refusal(21)) if list.len() < MAX_WORDS => {
                // It went through all rows to be refused; counted, they fit the next time.
                if let Some(Ok(counted)) = engine.count(store, query, plan, &mut scratch) {
                    fit(&counted, store, width, memory, &mut scratch, &mut list)?;
                    continue;
                }
                (&mut list, &scratch)
            }
            Err(refusal) => return Err(NoRun::Refused(refusal)),
        };
        let words = grow(grown.len(), other.len(), memory);
        if words <= grown.len() {
            return Err(NoRun::Memory { scratch: scratch.len(), list: list.len(), counted: false });
        }
        // A new buffer and not a resized one: what it held is of no use.
        *grown = Vec::new();
        *grown = vec![0; words];
    }
}

/// A list that the counted rows fit, beside the scratch that they need, with room where there is memory left.
fn fit(
    counted: &Counted,
    store: &[u32],
    width: usize,
    memory: usize,
    scratch: &mut Vec<u32>,
    list: &mut Vec<u32>,
) -> Result<(), NoRun> {
    let [rows, need] = [counted.answer.rows, counted.need].map(|words| usize::try_from(words).unwrap_or(usize::MAX));
    let words = rows.saturating_mul(width);
    let allowed = (memory / 4).checked_sub(words).filter(|&left| words <= MAX_WORDS && need <= left);
    let left = match allowed {
        Some(left) => left,
        None => return Err(NoRun::Memory { scratch: need, list: words, counted: true }),
    };
    (*scratch, *list) = (Vec::new(), Vec::new());
    (*scratch, *list) = (vec![0; (need + room(store, width, words)).min(left)], vec![0; words]);
    Ok(())
}

/// Counts what a run would answer, in a scratch that grows within so many bytes. None where the engine does not count.
pub fn count_growing(
    engine: &dyn Engine,
    store: &[u32],
    query: &[u8],
    plan: &[u8],
    memory: usize,
    first: First,
) -> Option<Result<Counted, NoRun>> {
    let mut scratch = vec![0; first.within(memory).scratch];
    loop {
        match engine.count(store, query, plan, &mut scratch)? {
            Ok(counted) => return Some(Ok(counted)),
            Err(Refusal(20)) if scratch.len() < MAX_WORDS => {}
            Err(refusal) => return Some(Err(NoRun::Refused(refusal))),
        }
        let words = grow(scratch.len(), 0, memory);
        if words <= scratch.len() {
            return Some(Err(NoRun::Memory { scratch: scratch.len(), list: 0, counted: false }));
        }
        scratch = Vec::new();
        scratch.resize(words, 0);
    }
}

/// The next length of a buffer beside another, within so many bytes.
fn grow(words: usize, beside: usize, memory: usize) -> usize {
    let allowed = (memory / 4).saturating_sub(beside);
    (4 * words).min(MAX_WORDS).min(allowed)
}

/// What a refusal means, in words.
pub fn meaning(refusal: Refusal) -> &'static str {
    match refusal.0 {
        1 => "the graph file is too short",
        2 => "the graph file is too long, or a fill bit is set",
        3 => "an edge of the graph has an unknown vertex or label 0",
        4 => "the edges of the graph do not ascend",
        5 => "the store is too small for the graph",
        6 => "the query file is too short",
        7 => "the query file is too long, or a fill bit is set",
        8 => "the query has not 2 to 8 vertices and 1 to 24 edges",
        9 => "an edge of the query has an unknown vertex or equal ends",
        10 => "the edges of the query do not ascend",
        11 => "the query is not connected",
        12 => "the bits of the plan file run out",
        13 => "the plan file has a further byte, or a fill bit is set",
        14 => "the plan has an operator that is unknown, or of an edge or a vertex that the query lacks",
        15 => "an operator of the plan finds too few results, or more than one is left at the end",
        16 => "an extend is by a covered vertex, or by one with no edge to the covered ones",
        17 => "a join's sides share no vertex, or one has none of its own, or a query edge runs between them",
        18 => "the plan leaves a vertex of the query uncovered",
        19 => "no accepted graph file loads to the store",
        20 => "the run needs more scratch",
        21 => "the rows do not fit the list",
        22 => "the records are fewer than the plan's operators",
        24 => "the bytes of the drawn plan do not fit",
        25 => "a vertex of the query has a first day above its last",
        26 => "a pair of the query has equal or unknown vertices, or the pairs do not ascend",
        27 => "the change file is malformed",
        28 => "a change adds a connection that is there, or takes one away that is not",
        29 => "the changes would make more than 1,048,575 connections",
        30 => "a count of the run would pass 64 bits",
        31 => "all orderings are listed for patterns of at most 5 vertices",
        32 => "the list of orderings is too short",
        33 => "the rows of a sheet are malformed",
        34 => "there is no such page",
        35 => "the page buffer is too short",
        _ => "a refusal that this program does not know",
    }
}
