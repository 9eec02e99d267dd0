//! Runs in buffers that grow to what they take.
use crate::store::width;
use crate::{
    count, find, run, Cache, Count, Matches, Record, Refusal, Run, Store, MAX_DRAWN_BYTES, MAX_OPERATORS, MAX_WORDS,
};

/// Scratch and list for runs, grown as they ask for it, records for the longest plan, and the plan that was drawn last.
#[derive(Clone, Debug, Default)]
pub struct Buffers {
    scratch: Vec<u32>,
    list: Vec<u32>,
    records: [Record; MAX_OPERATORS],
    plan: Vec<u8>,
}

impl Buffers {
    /// Buffers of no words.
    pub fn new() -> Buffers {
        Buffers::default()
    }

    /// Buffers of so many words of scratch and of list to begin with.
    pub fn with_words(scratch: usize, list: usize) -> Buffers {
        Buffers { scratch: vec![0; scratch], list: vec![0; list], ..Buffers::default() }
    }

    /// How many words of scratch and of list they have.
    pub fn words(&self) -> (usize, usize) {
        (self.scratch.len(), self.list.len())
    }
}

impl Store {
    /// Counts as [`Store::count`] does, in a scratch that grows as far as it is needed.
    pub fn count_in(&self, query: &[u8], plan: &[u8], cache: Cache, buffers: &mut Buffers) -> Result<Count, Refusal> {
        self.count_growing(query, plan, cache, &mut buffers.scratch)
    }

    /// Runs a query by a plan that is drawn for it, in buffers that grow, as [`Store::run_growing`] does. Where they are long enough, plan and
    /// run are made in one call, which checks the store once; buffers of no words begin at 16,384 of scratch, and of list four times the store's,
    /// of 16,384 to 1,048,576.
    pub fn run_drawn<'b>(&self, query: &[u8], cache: Cache, buffers: &'b mut Buffers) -> Result<Matches<'b>, Refusal> {
        let Buffers { scratch, list, records, plan } = buffers;
        if scratch.is_empty() {
            at_least(scratch, FIRST_WORDS);
            at_least(list, (4 * self.words().len()).clamp(FIRST_WORDS, LITTLE));
        }
        plan.resize(MAX_DRAWN_BYTES, 0);
        let answer = match find(self.words(), query, plan, cache, scratch, list, records) {
            Ok(found) => {
                plan.truncate(found.bytes);
                found.run
            }
            Err(small @ (Refusal::ScratchSmall | Refusal::ListSmall)) => {
                plan.truncate(drawn_bytes(query));
                self.run_until_it_fits(Err(small), query, plan, cache, scratch, list, records)?
            }
            Err(refusal) => return Err(refusal),
        };
        self.learn(query, &answer, scratch);
        Ok(Matches::new(query, plan, answer, list, records))
    }

    /// Runs a plan in buffers that grow to what it takes, up to [`MAX_WORDS`] words each; they keep their size for the next run. Buffers
    /// of no words begin at the plan's bounds, each up to 1,048,576 words, so that a run with such bounds is made at once. Where there is
    /// no list, or one that the rows do not fit, they are counted, and the run is made in a list that they fit.
    ///
    /// A scratch that is too short is made twice as long, as often as it takes: a run needs little of it, and is refused as soon as the need
    /// passes it. Where the rows are bounded or counted it is made with room for them, in which they are found once and not twice; else
    /// for the next run.
    pub fn run_growing<'b>(
        &self,
        query: &[u8],
        plan: &'b [u8],
        cache: Cache,
        buffers: &'b mut Buffers,
    ) -> Result<Matches<'b>, Refusal> {
        let Buffers { scratch, list, records, .. } = buffers;
        let are_new = scratch.is_empty();
        if are_new {
            let bounds = self.bounds(query, plan)?;
            let rows = little(bounds.list_words);
            at_least(list, rows);
            // A run writes or reads the whole scratch, as it reads the whole store. A bound far above that is mostly far above the rows.
            let room = if rows <= 2 * self.words().len() { self.room(query, rows) } else { 0 };
            at_least(scratch, little(bounds.scratch_words) + room);
        }
        let answer = match list.is_empty() && !are_new {
            true => Err(Refusal::ListSmall),
            false => run(self.words(), query, plan, cache, scratch, list, records),
        };
        let answer = self.run_until_it_fits(answer, query, plan, cache, scratch, list, records)?;
        self.learn(query, &answer, scratch);
        Ok(Matches::new(query, plan, answer, list, records))
    }

    /// The answer of a run, or of the first that is not refused in buffers that grow.
    fn run_until_it_fits(
        &self,
        mut answer: Result<Run, Refusal>,
        query: &[u8],
        plan: &[u8],
        cache: Cache,
        scratch: &mut Vec<u32>,
        list: &mut Vec<u32>,
        records: &mut [Record],
    ) -> Result<Run, Refusal> {
        loop {
            match answer {
                Err(Refusal::ScratchSmall) if scratch.len() < MAX_WORDS => twice(scratch),
                Err(Refusal::ListSmall) if list.len() < MAX_WORDS => {
                    self.fit_list(query, plan, cache, scratch, list)?
                }
                answer => return answer,
            }
            answer = run(self.words(), query, plan, cache, scratch, list, records);
        }
    }

    /// A list that the rows of a run fit, by counting them, and a scratch with room for them: refused where none is long enough.
    fn fit_list(
        &self,
        query: &[u8],
        plan: &[u8],
        cache: Cache,
        scratch: &mut Vec<u32>,
        list: &mut Vec<u32>,
    ) -> Result<(), Refusal> {
        let counted = self.count_growing(query, plan, cache, scratch)?;
        let words = counted.run.rows.saturating_mul(width(query));
        if words > MAX_WORDS {
            return Err(Refusal::ListSmall);
        }
        at_least(list, words);
        if words <= LONG {
            at_least(scratch, counted.need + self.room(query, words));
        }
        Ok(())
    }

    /// Room for the next run, where this one listed more than the scratch has room for.
    fn learn(&self, query: &[u8], answer: &Run, scratch: &mut Vec<u32>) {
        let words = answer.rows * width(query);
        if words > FEW && words <= LONG {
            let room = self.room(query, words);
            if scratch.len() < room {
                at_least(scratch, scratch.len() + room);
            }
        }
    }

    /// Words of scratch besides its need in which a run finds so many words of rows once and not twice: its first pass keeps them beside as many
    /// words as the sets of its extends could have, each no more than the longest list of the store.
    fn room(&self, query: &[u8], rows: usize) -> usize {
        rows + (width(query) - 2) * self.longest_list()
    }

    /// The most entries of a vertex on either side. The store is one that is not refused.
    fn longest_list(&self) -> usize {
        let (n, m) = (self.vertices(), self.edges());
        let forward = 2 + 2 * n;
        let sides = [forward, forward + n + 1 + m].map(|at| &self.words()[at..=at + n]);
        let longest = |offsets: &[u32]| offsets.windows(2).map(|ends| ends[1] - ends[0]).max().unwrap_or(0);
        sides.map(longest).into_iter().max().map_or(0, |most| n.min(most as usize))
    }

    fn count_growing(&self, query: &[u8], plan: &[u8], cache: Cache, scratch: &mut Vec<u32>) -> Result<Count, Refusal> {
        loop {
            match count(self.words(), query, plan, cache, scratch) {
                Err(Refusal::ScratchSmall) if scratch.len() < MAX_WORDS => twice(scratch),
                answer => return answer,
            }
        }
    }
}

/// How many bytes a drawn plan has: a count of 5 bits, a scan of 7, and 5 for each of the other vertices.
fn drawn_bytes(query: &[u8]) -> usize {
    (12 + 5 * (width(query) - 2)).div_ceil(8)
}

/// Words of scratch that a drawn plan is first run in, where there are none.
const FIRST_WORDS: usize = 1 << 14;

/// The most words that are set aside before a run asks for them. Words that are never written take no memory.
const LITTLE: usize = 1 << 20;

/// So many words of rows a run keeps by itself, without room in the scratch.
const FEW: usize = 1 << 12;

/// The rows of a longer list are found twice rather than kept twice.
const LONG: usize = 1 << 22;

/// A bound in words, or as many as are set aside for a larger one.
fn little(words: u64) -> usize {
    words.min(LITTLE as u64) as usize
}

/// At least so many words, all of them zero if there were fewer: what the buffer held is not kept.
fn at_least(buffer: &mut Vec<u32>, words: usize) {
    if buffer.len() < words {
        *buffer = Vec::new();
        *buffer = vec![0; words];
    }
}

/// Twice the words.
fn twice(buffer: &mut Vec<u32>) {
    at_least(buffer, (2 * buffer.len()).clamp(1024, MAX_WORDS));
}
