//! Names by number, and numbers by name.

use std::fmt;

/// A list of things, some of which have names; no two have the same.
#[derive(Clone, Default)]
pub struct Names {
    /// All names, one after the other.
    text: String,
    /// Where each name begins and ends; the same place for one without a name.
    spans: Vec<(u32, u32)>,
    /// A table by hash.
    table: Vec<Entry>,
    named: usize,
}

/// A name in the table: its hash, its number plus one, or 0 for none, and where it begins and ends.
#[derive(Clone, Copy, Default)]
struct Entry {
    hash: u32,
    next: u32,
    start: u32,
    end: u32,
}

impl Names {
    pub fn len(&self) -> usize {
        self.spans.len()
    }

    pub fn is_empty(&self) -> bool {
        self.spans.is_empty()
    }

    /// How many have a name.
    pub fn named(&self) -> usize {
        self.named
    }

    pub fn get(&self, number: u32) -> Option<&str> {
        let &(start, end) = self.spans.get(number as usize)?;
        (start < end).then(|| &self.text[start as usize..end as usize])
    }

    pub fn find(&self, name: &str) -> Option<u32> {
        if self.table.is_empty() {
            return None;
        }
        self.table[self.slot(name, hash(name))].next.checked_sub(1)
    }

    /// Adds things without names.
    pub fn add_unnamed(&mut self, count: usize) {
        self.spans.resize(self.spans.len() + count, (0, 0));
    }

    /// Adds a name, which is not empty; its number if it is there already.
    pub fn add(&mut self, name: &str) -> Result<u32, u32> {
        if (self.named + 1) * 2 > self.table.len() {
            self.grow();
        }
        let hash = hash(name);
        let slot = self.slot(name, hash);
        if let Some(number) = self.table[slot].next.checked_sub(1) {
            return Err(number);
        }
        let number = self.spans.len() as u32;
        let start = self.text.len() as u32;
        self.text.push_str(name);
        let end = self.text.len() as u32;
        self.table[slot] = Entry { hash, next: number + 1, start, end };
        self.spans.push((start, end));
        self.named += 1;
        Ok(number)
    }

    /// The number of a name, which is added if it is not there.
    pub fn intern(&mut self, name: &str) -> u32 {
        match self.find(name) {
            Some(number) => number,
            None => self.add(name).unwrap_or_else(|number| number),
        }
    }

    /// The names that there are, with their numbers.
    pub fn iter(&self) -> impl Iterator<Item = (u32, &str)> + Clone + '_ {
        (0..self.spans.len() as u32).filter_map(move |i| self.get(i).map(|name| (i, name)))
    }

    /// Where a name of a hash stands in the table, or would.
    fn slot(&self, name: &str, hash: u32) -> usize {
        let mask = self.table.len() - 1;
        let mut slot = hash as usize & mask;
        loop {
            let entry = self.table[slot];
            let is_same =
                |e: Entry| e.hash == hash && self.text.as_bytes()[e.start as usize..e.end as usize] == *name.as_bytes();
            if entry.next == 0 || is_same(entry) {
                return slot;
            }
            slot = (slot + 1) & mask;
        }
    }

    fn grow(&mut self) {
        let size = (2 * self.table.len()).max(16);
        let mut table = vec![Entry::default(); size];
        for entry in self.table.iter().filter(|entry| entry.next != 0) {
            let mut slot = entry.hash as usize & (size - 1);
            while table[slot].next != 0 {
                slot = (slot + 1) & (size - 1);
            }
            table[slot] = *entry;
        }
        self.table = table;
    }
}

/// A hash of a name: eight bytes at a time, multiplied and folded.
fn hash(name: &str) -> u32 {
    const FACTOR: u64 = 0x9e37_79b9_7f4a_7c15;
    let bytes = name.as_bytes();
    let mut state = FACTOR ^ bytes.len() as u64;
    for part in bytes.chunks(8) {
        let mut word = [0; 8];
        word[..part.len()].copy_from_slice(part);
        state = (state ^ u64::from_le_bytes(word)).wrapping_mul(FACTOR);
        state ^= state >> 29;
    }
    (state.wrapping_mul(FACTOR) >> 32) as u32
}

impl PartialEq for Names {
    fn eq(&self, other: &Names) -> bool {
        self.len() == other.len() && (0..self.len() as u32).all(|i| self.get(i) == other.get(i))
    }
}

impl fmt::Debug for Names {
    fn fmt(&self, f: &mut fmt::Formatter) -> fmt::Result {
        f.debug_list().entries((0..self.len() as u32).map(|i| self.get(i))).finish()
    }
}

#[cfg(test)]
mod tests {
    use super::Names;

    #[test]
    fn names_and_gaps() {
        let mut names = Names::default();
        assert_eq!(names.find("a"), None);
        assert_eq!(names.add("a"), Ok(0));
        names.add_unnamed(2);
        for i in 0..1_000 {
            assert_eq!(names.add(&format!("n{i}")), Ok(i + 3));
        }
        assert_eq!(names.add("n7"), Err(10));
        assert_eq!((names.len(), names.named()), (1_003, 1_001));
        assert_eq!((names.get(1), names.get(3), names.get(2_000)), (None, Some("n0"), None));
        assert_eq!((names.find("n999"), names.find("n1000")), (Some(1_002), None));
    }
}
