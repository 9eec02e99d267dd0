//! Whether the sides of a store agree, as the engine finds it without a search where there are few labels: the entries by ascending
//! (label, vertex), each held against the word at its neighbour's cursor.
use super::graph::Graph;

/// Small tables serve so many vertices.
const FEW_VERTICES: usize = 1_024;

/// More labels than these among the sampled entries are left to a search.
const FEW_LABELS: usize = 12;

/// One entry of so many is sampled.
const SAMPLE: usize = 16;

/// Sets of vertices by their next entry's label; word i of set k is word i * SETS + k.
const SETS: usize = 16;

/// The tables: a cursor a vertex on the other side, how many entries of each vertex are done, and the sets in which they wait.
struct Walk<'a> {
    g: &'a Graph<'a>,
    side: usize,
    other: usize,
    back: &'a [u32],
    cursors: &'a mut [u32],
    done: &'a mut [u16],
    sets: &'a mut [u64],
    /// One more than a label's set, 0 for none; of label 0, how many there are.
    sets_of: [u8; 256],
}

/// The first answer that is known stops the walk: `Some(false)` for a fault, `None` for undecided.
type Step = Result<(), Option<bool>>;

impl Walk<'_> {
    /// How far the entries of a label match, from one on.
    #[inline]
    fn matched(&mut self, list: &[u32], from: usize, v: u32, base: u32) -> usize {
        let (limit, mirror) = (base + 65_536, base + v);
        let mut last = base - 1;
        for (i, &entry) in list.iter().enumerate().skip(from) {
            if limit <= entry || entry <= last {
                return i;
            }
            let x = (entry - base) as usize;
            if self.g.vertices <= x {
                return i;
            }
            let at = self.cursors[x] as usize;
            if self.back.get(at) != Some(&mirror) {
                return i;
            }
            self.cursors[x] += 1;
            last = entry;
        }
        list.len()
    }

    /// Of an entry that does not match: whether it is a fault.
    #[cold]
    fn verdict(&self, v: u32, list: &[u32], i: usize) -> Option<bool> {
        let (entry, last) = (list[i], if i == 0 { 65_535 } else { list[i - 1] });
        let x = (entry & 65_535) as usize;
        if entry <= last || entry >= 1 << 24 || x >= self.g.vertices {
            return Some(false);
        }
        let mirror = entry - x as u32 + v;
        (!self.g.neighbours(self.other, x).contains(&mirror)).then_some(false)
    }

    /// A vertex's entries of a label; then it waits in the set of its next one.
    #[inline]
    fn vertex(&mut self, v: usize, base: u32) -> Step {
        let g = self.g;
        let list = g.neighbours(self.side, v);
        let i = self.matched(list, self.done[v].into(), v as u32, base);
        self.done[v] = u16::try_from(i).map_err(|_| None)?;
        let Some(&entry) = list.get(i) else { return Ok(()) };
        if entry < base + 65_536 || entry >= 1 << 24 {
            return Err(self.verdict(v as u32, list, i));
        }
        let label = (entry >> 16) as usize;
        if self.sets_of[label] == 0 {
            if usize::from(self.sets_of[0]) == SETS {
                return Err(None);
            }
            self.sets_of[0] += 1;
            self.sets_of[label] = self.sets_of[0];
        }
        self.sets[v / 64 * SETS + usize::from(self.sets_of[label]) - 1] |= 1 << (v % 64);
        Ok(())
    }

    fn labels(&mut self) -> Step {
        let n = self.g.vertices;
        let words = n.div_ceil(64);
        (0..words).for_each(|i| self.sets[i * SETS] = u64::MAX);
        (self.sets_of[0], self.sets_of[1]) = (1, 1);
        for label in 1..256 {
            let set = usize::from(self.sets_of[label]);
            if set == 0 {
                continue;
            }
            for i in 0..words {
                let mut word = self.sets[i * SETS + set - 1];
                while word != 0 {
                    let v = i * 64 + word.trailing_zeros() as usize;
                    if n <= v {
                        break;
                    }
                    self.vertex(v, (label as u32) << 16)?;
                    word &= word - 1;
                }
            }
        }
        Ok(())
    }

    fn agree(&mut self) -> Option<bool> {
        let (n, store) = (self.g.vertices, self.g.store);
        self.cursors[..n].copy_from_slice(&store[self.other..self.other + n]);
        if let Err(answer) = self.labels() {
            return answer;
        }
        let ends = &store[self.other + 1..self.other + 1 + n];
        let apart: u32 = self.cursors.iter().zip(ends).map(|(cursor, end)| u32::from(cursor != end)).sum();
        let starts = &store[self.side..self.side + n + 1];
        let left: u32 =
            starts.windows(2).zip(&*self.done).map(|(w, &done)| u32::from(w[0] + u32::from(done) < w[1])).sum();
        (apart + left == 0).then_some(true)
    }
}

#[inline(never)]
fn walk<const N: usize, const WORDS: usize>(g: &Graph, m: usize, side: usize, other: usize) -> Option<bool> {
    let back = &g.store[other + g.vertices + 1..][..m];
    let (mut cursors, mut done, mut sets) = ([0; N], [0; N], [0; WORDS]);
    let sets_of = [0; 256];
    Walk { g, side, other, back, cursors: &mut cursors, done: &mut done, sets: &mut sets, sets_of }.agree()
}

/// How many labels the sampled entries have, up to one more than few.
fn sampled_labels(entries: &[u32]) -> usize {
    let mut seen = [false; 256];
    let mut labels = 0;
    for entry in entries.iter().step_by(SAMPLE) {
        let label = (entry >> 16) as usize % 256;
        if !seen[label] {
            if labels == FEW_LABELS {
                return labels + 1;
            }
            seen[label] = true;
            labels += 1;
        }
    }
    labels
}

/// Whether the sides agree, where their offsets are right; none where that takes a search.
pub fn sides_agree(g: &Graph, m: usize, side: usize, other: usize) -> Option<bool> {
    let n = g.vertices;
    let labels = sampled_labels(&g.store[side + n + 1..][..m]);
    if FEW_LABELS < labels || 2 * m + n < labels * n {
        return None;
    }
    match n <= FEW_VERTICES {
        true => walk::<FEW_VERTICES, 256>(g, m, side, other),
        false => walk::<65_535, 16_384>(g, m, side, other),
    }
}
