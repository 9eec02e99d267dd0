//! A loaded store, read only.

use super::query::Filter;

/// Entries are label × 65,536 + neighbour.
pub const SPAN: u32 = 65_536;

/// Where a neighbour list leads: along the edges, or against them.
#[derive(Clone, Copy, Debug, PartialEq, Eq)]
pub enum Direction {
    Forward = 0,
    Backward = 1,
}

/// The parts of a store: words that Load wrote. Others may make the picker panic, and never make it read
/// past them.
#[derive(Clone, Copy)]
pub struct Store<'s> {
    pub labels: &'s [u32],
    pub days: &'s [u32],
    /// Offsets and entries, forward and backward.
    sides: [(&'s [u32], &'s [u32]); 2],
}

impl<'s> Store<'s> {
    /// The parts of N, M, the labels, the days, N + 1 forward offsets, M forward entries, and the same
    /// backward; nothing where words are missing.
    pub fn of(words: &'s [u32]) -> Option<Store<'s>> {
        let n = *words.first()? as usize;
        let m = *words.get(1)? as usize;
        let mut at: usize = 2;
        let mut part = |len: usize| {
            let found = words.get(at..at.checked_add(len)?)?;
            at += len;
            Some(found)
        };
        let labels = part(n)?;
        let days = part(n)?;
        let forward = (part(n + 1)?, part(m)?);
        let backward = (part(n + 1)?, part(m)?);
        Some(Store { labels, days, sides: [forward, backward] })
    }

    /// How many vertices there are.
    pub fn vertices(&self) -> usize {
        self.labels.len()
    }

    /// Where each vertex's list begins, and the last ends; and all entries of a direction, vertex by vertex.
    pub fn side(&self, direction: Direction) -> (&'s [u32], &'s [u32]) {
        self.sides[direction as usize]
    }

    pub fn entries(&self, direction: Direction) -> &'s [u32] {
        self.side(direction).1
    }

    /// A vertex's neighbour list.
    #[inline]
    pub fn list(&self, direction: Direction, v: u32) -> &'s [u32] {
        let (offsets, entries) = self.sides[direction as usize];
        &entries[offsets[v as usize] as usize..offsets[v as usize + 1] as usize]
    }

    /// The most entries of a vertex in either direction, as far as there are vertices.
    pub fn longest_list(&self) -> usize {
        let lists = self.sides.iter().flat_map(|(offsets, _)| offsets.windows(2));
        let longest = lists.map(|ends| ends[1].saturating_sub(ends[0])).max().unwrap_or(0);
        self.vertices().min(longest as usize)
    }

    /// A vertex's portion for an edge label; the whole list for label 0.
    #[inline]
    pub fn portion(&self, direction: Direction, v: u32, label: u32) -> &'s [u32] {
        let list = self.list(direction, v);
        if label == 0 {
            return list;
        }
        let (first, end) = (label * SPAN, label * SPAN + (SPAN - 1));
        let from = match list.first() {
            Some(&entry) if entry < first => list.partition_point(|&entry| entry < first),
            _ => 0,
        };
        let rest = &list[from..];
        let to = match rest.last() {
            Some(&entry) if entry > end => rest.partition_point(|&entry| entry <= end),
            _ => rest.len(),
        };
        &rest[..to]
    }

    /// Whether a vertex has the label and a day that a query vertex asks for.
    #[inline]
    pub fn fits(&self, filter: &Filter, v: u32) -> bool {
        let v = v as usize;
        (filter.label == 0 || self.labels[v] == filter.label)
            && (filter.any_day() || (filter.first..=filter.last).contains(&self.days[v]))
    }
}

/// The neighbour of an entry.
#[inline]
pub fn neighbour(entry: u32) -> u32 {
    entry % SPAN
}

/// Whether the entries of a portion have several labels.
#[inline]
pub fn several_labels(portion: &[u32]) -> bool {
    match (portion.first(), portion.last()) {
        (Some(first), Some(last)) => first / SPAN != last / SPAN,
        _ => false,
    }
}

/// Whether a portion has an entry to a vertex, of any label.
#[inline]
pub fn leads_to(portion: &[u32], x: u32) -> bool {
    let mut rest = portion;
    while let Some(first) = rest.first() {
        let key = first / SPAN * SPAN;
        let at = rest.partition_point(|&entry| entry < key + x);
        if rest.get(at) == Some(&(key + x)) {
            return true;
        }
        if !several_labels(rest) {
            return false;
        }
        rest = &rest[rest.partition_point(|&entry| entry <= key + (SPAN - 1))..];
    }
    false
}

/// Whether an entry of a portion is the first of those to its neighbour, which may be there once for each
/// label.
#[inline]
pub fn is_first(portion: &[u32], entry: u32) -> bool {
    let key = entry / SPAN * SPAN;
    match portion.first() {
        Some(&first) if first < key => {
            !leads_to(&portion[..portion.partition_point(|&other| other < key)], neighbour(entry))
        }
        _ => true,
    }
}

#[cfg(test)]
mod tests {
    use super::*;

    fn entries(pairs: &[(u32, u32)]) -> Vec<u32> {
        pairs.iter().map(|(label, x)| label * SPAN + x).collect()
    }

    #[test]
    fn portions_of_a_label() {
        // Two vertices, three edges of vertex 0: labels 1, 1 and 255.
        let mut words = vec![2, 3, 0, 0, 0, 0, 0, 3, 3];
        words.extend(entries(&[(1, 0), (1, 1), (255, 1)]));
        words.extend([0, 1, 3]);
        words.extend(entries(&[(1, 0), (1, 0), (255, 0)]));
        let store = Store::of(&words).expect("all words are there");
        let lengths = [0, 1, 2, 255].map(|label| store.portion(Direction::Forward, 0, label).len());
        assert_eq!(lengths, [3, 2, 0, 1]);
        assert_eq!(store.portion(Direction::Backward, 1, 255), entries(&[(255, 0)]));
        assert!(store.portion(Direction::Forward, 1, 0).is_empty());
        assert!(Store::of(&words[..words.len() - 1]).is_none());
        assert!(Store::of(&[]).is_none());
    }

    #[test]
    fn neighbours_of_several_labels() {
        let list = entries(&[(1, 3), (1, 9), (2, 3), (4, 5)]);
        let leading: Vec<u32> = (0..12).filter(|&x| leads_to(&list, x)).collect();
        assert_eq!(leading, [3, 5, 9]);
        let first: Vec<bool> = list.iter().map(|&entry| is_first(&list, entry)).collect();
        assert_eq!(first, [true, true, false, true]);
        assert!(several_labels(&list) && !several_labels(&list[..2]) && !several_labels(&[]));
    }
}
