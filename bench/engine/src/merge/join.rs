//! The build side of a hash join.
use super::{member, members, Row, NONE};
use crate::files::Query;

/// Build rows, chained by the hash of what they share with probe rows.
pub struct Table {
    words: Vec<u32>,
    width: usize,
    links: Vec<u32>,
    heads: Vec<u32>,
    /// Columns of build rows, with their query vertices: those that probe rows have too, and the others.
    shared: Vec<(usize, usize)>,
    own: Vec<(usize, usize)>,
    /// The pairs of which one vertex is only in build rows and the other only in probe rows.
    pairs: Vec<(usize, usize)>,
}

fn mix(hash: u32, x: u32) -> u32 {
    hash.wrapping_mul(40_503).wrapping_add(x)
}

impl Table {
    /// Of rows over b, for probe rows over p.
    pub fn new(q: &Query, b: u32, p: u32, words: Vec<u32>) -> Table {
        let width = b.count_ones() as usize;
        let places = |part: u32| members(b).enumerate().filter(|&(_, v)| member(part, v)).collect();
        let apart = |low: usize, high: usize| member(b & !p, low) && member(p & !b, high);
        let pairs = q.pairs.iter().filter(|&&(low, high)| apart(low, high) || apart(high, low));
        let rows = words.len() / width;
        let mut table = Table {
            width,
            links: vec![0; rows],
            heads: vec![0; rows.next_power_of_two()],
            shared: places(b & p),
            own: places(b & !p),
            pairs: pairs.copied().collect(),
            words,
        };
        for i in (0..rows).rev() {
            let row = &table.words[i * width..][..width];
            let bucket = table.bucket(table.shared.iter().map(|&(c, _)| row[c]));
            table.links[i] = table.heads[bucket];
            table.heads[bucket] = i as u32 + 1;
        }
        table
    }

    pub fn rows(&self) -> usize {
        self.links.len()
    }

    fn bucket(&self, key: impl Iterator<Item = u32>) -> usize {
        key.fold(0, mix) as usize & (self.heads.len() - 1)
    }

    #[inline]
    fn build(&self, i: usize) -> &[u32] {
        &self.words[i * self.width..][..self.width]
    }

    #[inline]
    fn meets(&self, i: usize, row: &Row) -> bool {
        let build = self.build(i);
        let word = |v: usize| match row[v] {
            NONE => self.own.iter().find(|&&(_, own)| own == v).map_or(NONE, |&(c, _)| build[c]),
            x => x,
        };
        self.shared.iter().all(|&(c, v)| build[c] == row[v])
            && self.own.iter().all(|&(c, _)| !row.contains(&build[c]))
            && self.pairs.iter().all(|&(low, high)| word(low) < word(high))
    }

    #[inline]
    fn from(&self, mut link: u32, row: &Row) -> Option<usize> {
        while link != 0 {
            let i = link as usize - 1;
            if self.meets(i, row) {
                return Some(i);
            }
            link = self.links[i];
        }
        None
    }

    /// The first build row that meets a row.
    #[inline]
    pub fn first(&self, row: &Row) -> Option<usize> {
        self.from(self.heads[self.bucket(self.shared.iter().map(|&(_, v)| row[v]))], row)
    }

    /// The next after build row i.
    #[inline]
    pub fn next(&self, i: usize, row: &Row) -> Option<usize> {
        self.from(self.links[i], row)
    }

    /// Lays the own words of build row i over a row, and takes them off it.
    #[inline]
    pub fn lay(&self, i: usize, row: &mut Row) {
        let build = self.build(i);
        self.own.iter().for_each(|&(c, v)| row[v] = build[c]);
    }

    #[inline]
    pub fn clear(&self, row: &mut Row) {
        self.own.iter().for_each(|&(_, v)| row[v] = NONE);
    }
}
