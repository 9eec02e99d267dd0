//! The operations over borrowed buffers: the only place that calls the static library.
#![allow(unsafe_code)]

use crate::sys::{self, Record};
use crate::Refusal;

/// The most vertices that a query may have whose orderings are listed.
pub const MAX_ORDERING_VERTICES: usize = 5;

/// As many words serve every list of orderings: 144 entries of 6.
pub const MAX_ORDERING_WORDS: usize = 864;

/// Scratch or a match list longer than this counts as this long, and the rest of it is untouched.
pub const MAX_WORDS: usize = 1 << 30;

/// The most operators that a plan may have: as many records serve every plan.
pub const MAX_OPERATORS: usize = 31;

/// A drawn plan has no more bytes than this.
pub const MAX_DRAWN_BYTES: usize = 6;

/// The bytes of a page: 60 lines of 80 columns, each with a line feed.
pub const PAGE_BYTES: usize = 4860;

/// Whether an extend reuses the vertices that it found for the row just before, where it may. The rows and the need are the same, and
/// the cost with it on is no higher.
#[derive(Clone, Copy, Debug, PartialEq, Eq, Hash)]
pub enum Cache {
    /// Every row is looked up.
    Off,
    /// Rows like the one before reuse its vertices.
    On,
}

/// The counts of a graph that was loaded, or edited.
#[derive(Clone, Copy, Debug, PartialEq, Eq)]
pub struct Loaded {
    /// How many vertices the graph has.
    pub vertices: usize,
    /// How many edges it has.
    pub edges: usize,
}

/// The numbers of an accepted run.
#[derive(Clone, Copy, Debug, PartialEq, Eq)]
pub struct Run {
    /// How many matches there are.
    pub rows: usize,
    /// The lengths of the neighbour lists that the extends intersected, together.
    pub cost: u64,
    /// Build rows over all joins.
    pub build: u64,
    /// Probe rows over all joins.
    pub probe: u64,
}

/// 0 is accepted; any other number is a refusal.
fn accepted(number: u32) -> Result<(), Refusal> {
    if number == 0 {
        return Ok(());
    }
    Err(Refusal::from_number(number).unwrap_or_else(|| {
        panic!("the static library answers {number}, which is no refusal that this crate knows: they are not of one version")
    }))
}

fn size(number: u64) -> usize {
    usize::try_from(number).expect("a count of words fits a usize")
}

/// Loads a graph file into a store that the caller lends. Refused, the store is untouched; loaded, the words past the used ones
/// are.
pub fn load_into(file: &[u8], store: &mut [u32]) -> Result<Loaded, Refusal> {
    let (mut vertices, mut edges) = (0, 0);
    // SAFETY: each pointer and length are those of one slice, and the numbers are locals. The store is borrowed alone.
    let number = unsafe {
        sys::rizhavaan_load(file.as_ptr(), file.len(), store.as_mut_ptr(), store.len(), &mut vertices, &mut edges)
    };
    accepted(number)?;
    Ok(Loaded { vertices: size(vertices), edges: size(edges) })
}

/// Writes the store of an edited graph, from an old store and a change file, into a store that the caller lends: the words are those
/// that [`load_into`] writes for a file of that graph. The old store is only read.
///
/// Any words may stand for the old store: those that no graph file loads to are refused. Refused, the new store is untouched; written,
/// the words past the used ones are.
pub fn apply_changes_into(old: &[u32], changes: &[u8], store: &mut [u32]) -> Result<Loaded, Refusal> {
    let (mut vertices, mut edges) = (0, 0);
    // SAFETY: each pointer and length are those of one slice, and the numbers are locals. The new store is borrowed alone.
    let number = unsafe {
        sys::rizhavaan_apply_changes(
            old.as_ptr(),
            old.len(),
            changes.as_ptr(),
            changes.len(),
            store.as_mut_ptr(),
            store.len(),
            &mut vertices,
            &mut edges,
        )
    };
    accepted(number)?;
    Ok(Loaded { vertices: size(vertices), edges: size(edges) })
}

/// Checks a plan against a query; answers how many operators it has.
pub fn check_plan(query: &[u8], plan: &[u8]) -> Result<usize, Refusal> {
    let mut operators = 0;
    // SAFETY: each pointer and length are those of one slice, and the number is a local.
    let number =
        unsafe { sys::rizhavaan_check_plan(query.as_ptr(), query.len(), plan.as_ptr(), plan.len(), &mut operators) };
    accepted(number)?;
    Ok(size(operators))
}

/// Draws a plan for a query over a store, of one scan and extends, into bytes that the caller lends: [`MAX_DRAWN_BYTES`] are always
/// enough. Answers how many bytes the plan has; they are the first ones, and [`check_plan`] accepts them.
///
/// Refused, the bytes are untouched; drawn, those past the plan are.
pub fn draw_plan_into(store: &[u32], query: &[u8], plan: &mut [u8]) -> Result<usize, Refusal> {
    let mut bytes = 0;
    // SAFETY: each pointer and length are those of one slice, and the number is a local. The plan is borrowed alone.
    let number = unsafe {
        sys::rizhavaan_draw_plan(
            store.as_ptr(),
            store.len(),
            query.as_ptr(),
            query.len(),
            plan.as_mut_ptr(),
            plan.len(),
            &mut bytes,
        )
    };
    accepted(number)?;
    Ok(size(bytes))
}

/// What no run of a plan passes: the words of list and scratch to set aside for it, its cost, and the rows of any of its operators. A
/// number too large for 64 bits is given as the largest of them.
#[derive(Clone, Copy, Debug, PartialEq, Eq)]
pub struct Bounds {
    /// Words of the match list.
    pub list_words: u64,
    /// Words of the scratch.
    pub scratch_words: u64,
    /// The cost of the run.
    pub cost: u64,
    /// The rows of any operator.
    pub largest: u64,
}

impl Bounds {
    /// All four lie below the cap of [`MAX_WORDS`]: a run whose list and scratch reach theirs is refused neither for want of room nor
    /// for a number that passes 64 bits.
    pub fn below_cap(&self) -> bool {
        [self.list_words, self.scratch_words, self.cost, self.largest].iter().all(|&number| number < MAX_WORDS as u64)
    }
}

/// Lists every accepted plan of one scan and extends of a query of at most [`MAX_ORDERING_VERTICES`] vertices, with its cost: n + 1 words
/// each, the scan's index, the vertices in turn, the cost's high word, its low word. Answers how many they are; [`MAX_ORDERING_WORDS`]
/// words are always enough.
///
/// Each ordering is run once with the cache on, its rows counted and not listed; the first that the scratch is too short for refuses all.
/// Refused, the words are untouched; listed, those past the last entry are. The scratch, up to [`MAX_WORDS`], is zero afterwards.
pub fn orderings_into(store: &[u32], query: &[u8], scratch: &mut [u32], words: &mut [u32]) -> Result<usize, Refusal> {
    let mut plans = 0;
    // SAFETY: each pointer and length are those of one slice, and the number is a local. Scratch and words are borrowed alone.
    let number = unsafe {
        sys::rizhavaan_orderings(
            store.as_ptr(),
            store.len(),
            query.as_ptr(),
            query.len(),
            scratch.as_mut_ptr(),
            scratch.len(),
            words.as_mut_ptr(),
            words.len(),
            &mut plans,
        )
    };
    accepted(number)?;
    Ok(size(plans))
}

/// Bounds a plan over a store, without a run. `rizhavaan.h` has the rules.
pub fn bounds(store: &[u32], query: &[u8], plan: &[u8]) -> Result<Bounds, Refusal> {
    let (mut list_words, mut scratch_words, mut cost, mut largest) = (0, 0, 0, 0);
    // SAFETY: each pointer and length are those of one slice, and the numbers are locals.
    let number = unsafe {
        sys::rizhavaan_bounds(
            store.as_ptr(),
            store.len(),
            query.as_ptr(),
            query.len(),
            plan.as_ptr(),
            plan.len(),
            &mut list_words,
            &mut scratch_words,
            &mut cost,
            &mut largest,
        )
    };
    accepted(number)?;
    Ok(Bounds { list_words, scratch_words, cost, largest })
}

/// What a run would answer, and the words of scratch that it needs.
#[derive(Clone, Copy, Debug, PartialEq, Eq)]
pub struct Count {
    /// The answer of a run in a scratch of `need` words or more, a list of as many words a row as the query has vertices, and enough records.
    pub run: Run,
    /// The need: with fewer words of scratch a run is refused ([`Refusal::ScratchSmall`]).
    pub need: usize,
}

/// Counts what a run of a plan over a store would answer, without a list or records. `rizhavaan.h` has what that tells of a run.
///
/// The scratch is as in [`run`]: too short, the count is refused, and it is zero afterwards in both cases.
pub fn count(store: &[u32], query: &[u8], plan: &[u8], cache: Cache, scratch: &mut [u32]) -> Result<Count, Refusal> {
    let (mut rows, mut cost, mut build, mut probe, mut need) = (0, 0, 0, 0, 0);
    // SAFETY: each pointer and length are those of one slice, and the numbers are locals. The scratch is borrowed alone.
    let number = unsafe {
        sys::rizhavaan_count(
            store.as_ptr(),
            store.len(),
            query.as_ptr(),
            query.len(),
            plan.as_ptr(),
            plan.len(),
            cache == Cache::On,
            scratch.as_mut_ptr(),
            scratch.len(),
            &mut rows,
            &mut cost,
            &mut build,
            &mut probe,
            &mut need,
        )
    };
    accepted(number)?;
    Ok(Count { run: Run { rows: size(rows), cost, build, probe }, need: size(need) })
}

/// Runs a plan over a store: the rows are the list's first words, as many a row as the query has vertices, no two the same. The
/// first records are those of the plan's operators, in its order; there must be one for each.
///
/// Any words may stand for a store: those that no graph file loads to are refused. Refused, list and records are untouched;
/// accepted, the words past the last row are, and the records past the last operator. The scratch, up to [`MAX_WORDS`], is zero
/// afterwards in both cases.
///
/// Rows are streamed through the plan: the scratch holds a row and a set of vertices for each operator and all rows of a join's build side,
/// but not the rows that are listed. `rizhavaan.h` has the need as sums. In a longer scratch, which has room for the rows too, they are found
/// once and not twice.
pub fn run(
    store: &[u32],
    query: &[u8],
    plan: &[u8],
    cache: Cache,
    scratch: &mut [u32],
    list: &mut [u32],
    records: &mut [Record],
) -> Result<Run, Refusal> {
    let (mut rows, mut cost, mut build, mut probe) = (0, 0, 0, 0);
    // SAFETY: each pointer and length are those of one slice, and the numbers are locals. Scratch, list and records are borrowed
    // alone.
    let number = unsafe {
        sys::rizhavaan_run(
            store.as_ptr(),
            store.len(),
            query.as_ptr(),
            query.len(),
            plan.as_ptr(),
            plan.len(),
            cache == Cache::On,
            scratch.as_mut_ptr(),
            scratch.len(),
            list.as_mut_ptr(),
            list.len(),
            records.as_mut_ptr(),
            records.len(),
            &mut rows,
            &mut cost,
            &mut build,
            &mut probe,
        )
    };
    accepted(number)?;
    Ok(Run { rows: size(rows), cost, build, probe })
}

/// The length of a drawn plan in bytes, and what its run answered.
#[derive(Clone, Copy, Debug, PartialEq, Eq)]
pub struct Found {
    /// The first so many of the lent bytes are the plan.
    pub bytes: usize,
    /// What a run of it answers.
    pub run: Run,
}

/// Draws a plan for a query, as [`draw_plan_into`] does, and runs it, as [`run`] does, with one check of the store: [`MAX_DRAWN_BYTES`] are
/// always enough for the plan.
///
/// What is answered and left is as by the two. Where no plan is drawn, nothing is touched but the scratch; where its run is refused, the plan
/// stands in the bytes all the same.
pub fn find(
    store: &[u32],
    query: &[u8],
    plan: &mut [u8],
    cache: Cache,
    scratch: &mut [u32],
    list: &mut [u32],
    records: &mut [Record],
) -> Result<Found, Refusal> {
    let (mut bytes, mut rows, mut cost, mut build, mut probe) = (0, 0, 0, 0, 0);
    // SAFETY: each pointer and length are those of one slice, and the numbers are locals. Plan, scratch, list and records are borrowed
    // alone.
    let number = unsafe {
        sys::rizhavaan_find(
            store.as_ptr(),
            store.len(),
            query.as_ptr(),
            query.len(),
            plan.as_mut_ptr(),
            plan.len(),
            cache == Cache::On,
            scratch.as_mut_ptr(),
            scratch.len(),
            list.as_mut_ptr(),
            list.len(),
            records.as_mut_ptr(),
            records.len(),
            &mut bytes,
            &mut rows,
            &mut cost,
            &mut build,
            &mut probe,
        )
    };
    accepted(number)?;
    Ok(Found { bytes: size(bytes), run: Run { rows: size(rows), cost, build, probe } })
}

/// Fills one page of the rows of a list, `n` words a row, as text, in bytes that the caller lends: [`PAGE_BYTES`] or more. Answers the
/// page count. The first page is 1.
///
/// Line 1 holds the page number and the page count, lines 2 to 60 a row each, 59 rows a page in list order, every number right-aligned
/// in 8 columns. Every word of the rows is looked at, whatever the page. Refused, the bytes are untouched; filled, those past the page
/// are.
pub fn page_into(list: &[u32], n: usize, rows: usize, page: usize, bytes: &mut [u8]) -> Result<usize, Refusal> {
    let mut pages = 0;
    // SAFETY: each pointer and length are those of one slice, and the number is a local. The bytes are borrowed alone.
    let number = unsafe {
        sys::rizhavaan_page(
            list.as_ptr(),
            list.len(),
            n as u64,
            rows as u64,
            page as u64,
            bytes.as_mut_ptr(),
            bytes.len(),
            &mut pages,
        )
    };
    accepted(number)?;
    Ok(size(pages))
}
