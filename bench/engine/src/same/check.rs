//! The store check, as the engine has it: both sides walked by labels where these are few; else the backward side in order, then the
//! forward one in order and each of its entries mirrored, and counting does the rest.
use super::graph::{accumulate, find, Graph};
use super::walk::sides_agree;
use crate::files::store_words;

/// Where there are no more than so many entries a vertex, lists are short.
const SHORT: usize = 2;

const BLOCK: usize = 1024;

/// For each vertex, a guess of the place of the next mirror in its list.
type Guesses = [u8; 65_535];

#[inline]
fn entry_is_right(g: &Graph, entry: u32, last: u32) -> bool {
    last < entry && entry < 1 << 24 && ((entry & 65_535) as usize) < g.vertices
}

fn offsets_are_right(g: &Graph, side: usize, m: usize) -> bool {
    let offsets = &g.store[side..side + g.vertices + 1];
    offsets[0] == 0 && offsets.windows(2).all(|w| w[0] <= w[1]) && offsets[g.vertices] as usize == m
}

/// How many of the ranges of an entry are broken.
#[inline]
fn faults_of(entry: u32, n: u32) -> u32 {
    u32::from(entry < 1 << 16) + u32::from(1 << 24 <= entry) + u32::from(n <= entry & 65_535)
}

/// All lists of a side at once: the ranges of all entries, and as many words that are not above the one before them as first
/// words of lists.
fn lists_are_right(g: &Graph, side: usize, m: usize) -> bool {
    let before = side + g.vertices;
    let entries = &g.store[before + 1..before + 1 + m];
    if entries.iter().map(|&entry| faults_of(entry, g.vertices as u32)).sum::<u32>() != 0 {
        return false;
    }
    let falls: u32 = g.store[before..before + 1 + m].windows(2).map(|w| u32::from(w[1] <= w[0])).sum();
    let starts: u32 = g.store[side..before + 1]
        .windows(2)
        .filter(|w| w[0] < w[1])
        .map(|w| before + w[0] as usize)
        .map(|at| u32::from(g.store[at + 1] <= g.store[at]))
        .sum();
    falls == starts
}

/// Whether an ascending list has a word, by a guess of its place. It moves on where it is right, or past the list.
#[inline]
fn has_guessed(list: &[u32], x: u32, guess: &mut u8) -> bool {
    let at = usize::from(*guess);
    let Some(place) = find(list, x, at) else { return false };
    if at == place || list.len() <= at {
        *guess = (place + 1) as u8;
    }
    true
}

/// The lists of a side walked one by one, each entry tested and mirrored on the other.
fn lists_are_mirrored(g: &Graph, side: usize, other: usize) -> bool {
    let mut guesses: Guesses = [0; 65_535];
    (0..g.vertices).all(|v| {
        let mut last = 65_535;
        g.neighbours(side, v).iter().all(|&entry| {
            if !entry_is_right(g, entry, last) {
                return false;
            }
            last = entry;
            let far = entry & 65_535;
            let list = g.neighbours(other, far as usize);
            has_guessed(list, entry - far + v as u32, &mut guesses[far as usize])
        })
    })
}

/// Whether a list of at most four words has a word. Four places are looked at, whatever its length: those past its end are its last.
#[inline]
fn few_have(list: &[u32], x: u32) -> bool {
    let Some(end) = list.len().checked_sub(1) else { return false };
    let second = usize::from(0 < end);
    let third = second + usize::from(1 < end);
    let is_at = |i: usize| u32::from(list[i] == x);
    is_at(0) + is_at(second) + is_at(third) + is_at(end) != 0
}

/// Whether an entry of v is mirrored on the other side.
#[inline]
fn is_mirrored(g: &Graph, other: usize, v: u32, entry: u32, guesses: &mut Guesses) -> bool {
    let far = entry & 65_535;
    let mirror = entry - far + v;
    let list = g.neighbours(other, far as usize);
    if 4 < list.len() {
        return has_guessed(list, mirror, &mut guesses[far as usize]);
    }
    few_have(list, mirror)
}

/// How many lists begin at each entry of a block or before it. The `next` ones that begin before the block are counted at its first.
fn lists_begun(starts: &[u32], next: usize, base: usize, begun: &mut [u32; BLOCK]) {
    begun.fill(0);
    begun[0] = next as u32;
    for &start in &starts[next..] {
        let at = start as usize;
        if base + BLOCK <= at {
            break;
        }
        begun[at - base] += 1;
    }
    accumulate(begun);
}

/// All entries of a side in turn, each mirrored on the other: its vertex is one less than how many lists have begun.
fn entries_are_mirrored(g: &Graph, side: usize, other: usize, m: usize) -> bool {
    let mut begun = [0; BLOCK];
    let mut guesses: Guesses = [0; 65_535];
    let starts = &g.store[side..side + g.vertices];
    let entries = &g.store[side + g.vertices + 1..][..m];
    let mut next = 0;
    entries.chunks(BLOCK).enumerate().all(|(i, block)| {
        lists_begun(starts, next, i * BLOCK, &mut begun);
        next = begun[BLOCK - 1] as usize;
        block.iter().zip(&begun).all(|(&entry, lists)| is_mirrored(g, other, lists - 1, entry, &mut guesses))
    })
}

/// Whether some accepted graph file loads to a store.
pub fn check(store: &[u32]) -> bool {
    let &[n, m, ..] = store else { return false };
    let (n, m) = (n as usize, m as usize);
    if n > 65_535 || m > 1_048_575 || store.len() < store_words(n, m) {
        return false;
    }
    let g = Graph::of(store);
    let ordered = store[2..g.forward].iter().all(|&number| number < 65_536)
        && offsets_are_right(&g, g.forward, m)
        && offsets_are_right(&g, g.backward, m);
    if !ordered {
        return false;
    }
    if let Some(agree) = sides_agree(&g, m, g.forward, g.backward) {
        return agree;
    }
    if !lists_are_right(&g, g.backward, m) {
        return false;
    }
    if m <= SHORT * n {
        return lists_are_right(&g, g.forward, m) && entries_are_mirrored(&g, g.forward, g.backward, m);
    }
    lists_are_mirrored(&g, g.forward, g.backward)
}
