//! All orderings of a small pattern, with their costs.
use crate::{orderings_into, Refusal, Store, MAX_ORDERING_WORDS, MAX_WORDS};

/// An accepted plan of one scan and extends, with its cost with the cache on.
#[derive(Clone, Debug, PartialEq, Eq, Hash)]
pub struct PlanOrder {
    /// The index of the query edge that is scanned.
    pub scan: usize,
    /// The query vertices that are extended by, in turn.
    pub extends: Vec<usize>,
    /// The lengths of the neighbour lists that the extends intersect, together.
    pub cost: u64,
}

impl PlanOrder {
    /// Its plan file: the operator count in 5 bits, the scan's kind in 2 and edge in 5, each extend's kind in 2 and vertex in 3.
    pub fn plan(&self) -> Vec<u8> {
        let mut bits = (1 + self.extends.len() as u64) << 7 | self.scan as u64;
        let mut width = 12;
        for &vertex in &self.extends {
            bits = bits << 5 | 1 << 3 | vertex as u64;
            width += 5;
        }
        let bytes = usize::div_ceil(width, 8);
        bits <<= 8 * bytes - width;
        bits.to_be_bytes()[8 - bytes..].to_vec()
    }
}

/// The orderings of a query, by the scan's index and then by the vertices in turn. Made by [`Store::orderings`].
#[derive(Clone, Debug)]
pub struct PlanOrders {
    words: Vec<u32>,
    width: usize,
    next: usize,
}

impl Iterator for PlanOrders {
    type Item = PlanOrder;

    fn next(&mut self) -> Option<PlanOrder> {
        let entry = self.words.get(self.next..self.next + self.width)?;
        self.next += self.width;
        let (numbers, cost) = entry.split_at(self.width - 2);
        Some(PlanOrder {
            scan: numbers[0] as usize,
            extends: numbers[1..].iter().map(|&vertex| vertex as usize).collect(),
            cost: u64::from(cost[0]) << 32 | u64::from(cost[1]),
        })
    }

    fn size_hint(&self) -> (usize, Option<usize>) {
        let left = (self.words.len() - self.next) / self.width;
        (left, Some(left))
    }
}

impl ExactSizeIterator for PlanOrders {}

impl Store {
    /// Every accepted plan of one scan and extends of a query of at most five vertices, with its cost, in a scratch that is doubled until all
    /// of them fit, up to [`MAX_WORDS`] words: as each ordering is counted in turn, those before the one that does not fit are counted again.
    pub fn orderings(&self, query: &[u8]) -> Result<PlanOrders, Refusal> {
        let mut words = vec![0; MAX_ORDERING_WORDS];
        let mut scratch = vec![0; 1 << 16];
        let plans = loop {
            match orderings_into(self.words(), query, &mut scratch, &mut words) {
                Err(Refusal::ScratchSmall) if scratch.len() < MAX_WORDS => scratch = vec![0; 2 * scratch.len()],
                answer => break answer?,
            }
        };
        let width = usize::from(query[0] >> 4) + 1;
        words.truncate(plans * width);
        Ok(PlanOrders { words, width, next: 0 })
    }
}
