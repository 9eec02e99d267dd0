//! The packed files, read by plain Rust: what both plain versions share.
use rizhavaan::Record;

pub fn field(file: &[u8], at: usize, width: usize) -> u32 {
    let i = at / 8;
    let word = match file.get(i..i + 4) {
        Some(bytes) => u32::from_be_bytes(bytes.try_into().unwrap()),
        None => (i..i + 4).fold(0, |word, k| word << 8 | u32::from(file.get(k).copied().unwrap_or(0))),
    };
    ((u64::from(word) >> (32 - at % 8 - width)) & ((1 << width) - 1)) as u32
}

/// What a query vertex asks: a label, 0 for any, and a range of days.
#[derive(Clone, Copy)]
pub struct Filter {
    pub label: u32,
    pub first: u32,
    pub last: u32,
}

impl Filter {
    pub fn any_day(&self) -> bool {
        self.first == 0 && self.last == 65_535
    }
}

/// An accepted query.
pub struct Query {
    pub filters: Vec<Filter>,
    /// From, to, label.
    pub edges: Vec<(usize, usize, u32)>,
    /// The first's item is to be below the second's.
    pub pairs: Vec<(usize, usize)>,
}

#[derive(Clone, Copy)]
pub enum Operator {
    Scan(usize),
    Extend(usize),
    Join,
}

pub fn query(file: &[u8]) -> Query {
    let (n, m) = (field(file, 0, 4) as usize, field(file, 4, 5) as usize);
    let filter = |v| {
        let [label, first, last] = [0, 16, 32].map(|offset| field(file, 9 + 48 * v + offset, 16));
        Filter { label, first, last }
    };
    let edge = |i| {
        let at = 9 + 48 * n + 14 * i;
        (field(file, at, 3) as usize, field(file, at + 3, 3) as usize, field(file, at + 6, 8))
    };
    let pairs = 9 + 48 * n + 14 * m;
    let pair = |i| {
        let at = pairs + 4 + 6 * i;
        (field(file, at, 3) as usize, field(file, at + 3, 3) as usize)
    };
    Query {
        filters: (0..n).map(filter).collect(),
        edges: (0..m).map(edge).collect(),
        pairs: (0..field(file, pairs, 4) as usize).map(pair).collect(),
    }
}

pub fn plan(file: &[u8]) -> Vec<Operator> {
    let mut at = 5;
    let mut next = |width| {
        at += width;
        field(file, at - width, width) as usize
    };
    let mut operators = Vec::new();
    for _ in 0..field(file, 0, 5) {
        operators.push(match next(2) {
            0 => Operator::Scan(next(5)),
            1 => Operator::Extend(next(3)),
            _ => Operator::Join,
        });
    }
    operators
}

/// What a run answers: rows and the other numbers, or a refusal.
#[derive(Clone, Copy, Debug, PartialEq, Eq)]
pub struct Answer {
    pub refusal: u32,
    pub rows: usize,
    pub cost: u64,
    pub build: u64,
    pub probe: u64,
}

impl Answer {
    pub fn refused(refusal: u32) -> Answer {
        Answer { refusal, rows: 0, cost: 0, build: 0, probe: 0 }
    }

    /// Of an accepted run, by the records of its operators.
    pub fn of(rows: usize, records: &[Record], build: u64, probe: u64) -> Answer {
        Answer { refusal: 0, rows, cost: records.iter().map(|record| record.cost).sum(), build, probe }
    }
}

/// The words of a store of n vertices and m edges.
pub fn store_words(n: usize, m: usize) -> usize {
    4 * n + 2 * m + 4
}

/// The edge i of a graph file of n vertices: source, label, target.
pub fn edge(file: &[u8], n: usize, i: usize) -> (u32, u32, u32) {
    let at = 36 + 32 * n + 40 * i;
    (field(file, at, 16), field(file, at + 16, 8), field(file, at + 24, 16))
}

/// The counts of a graph file, or refusals 1 and 2.
pub fn counts(file: &[u8]) -> Result<(usize, usize), u32> {
    if file.len() < 5 {
        return Err(1);
    }
    let (n, m) = (field(file, 0, 16) as usize, field(file, 16, 20) as usize);
    let size = 5 + 4 * n + 5 * m;
    if file.len() < size {
        return Err(1);
    }
    if file.len() > size || field(file, 8 * size - 4, 4) != 0 {
        return Err(2);
    }
    Ok((n, m))
}

/// The counts of a graph file, or refusals 1 to 5.
pub fn accepted(file: &[u8], room: usize) -> Result<(usize, usize), u32> {
    let (n, m) = counts(file)?;
    let mut before = None;
    for i in 0..m {
        let edge = edge(file, n, i);
        if edge.0 as usize >= n || edge.2 as usize >= n || edge.1 == 0 {
            return Err(3);
        }
        if before >= Some(edge) {
            return Err(4);
        }
        before = Some(edge);
    }
    if room < store_words(n, m) {
        return Err(5);
    }
    Ok((n, m))
}

/// A store's parts.
pub struct Parts<'s> {
    pub n: usize,
    pub labels: &'s [u32],
    pub days: &'s [u32],
    /// Offsets and entries, forward and backward.
    pub sides: [(&'s [u32], &'s [u32]); 2],
}

impl<'s> Parts<'s> {
    /// Of words whose counts are within their limits and that are all there.
    pub fn of(store: &'s [u32]) -> Option<Parts<'s>> {
        let (&n, &m) = (store.first()?, store.get(1)?);
        let (n, m) = (n as usize, m as usize);
        if n > 65_535 || m > 1_048_575 {
            return None;
        }
        let (labels, rest) = store[2..].split_at_checked(n)?;
        let (days, rest) = rest.split_at_checked(n)?;
        let (forward, rest) = rest.split_at_checked(n + 1 + m)?;
        let (backward, _) = rest.split_at_checked(n + 1 + m)?;
        Some(Parts { n, labels, days, sides: [forward.split_at(n + 1), backward.split_at(n + 1)] })
    }

    #[inline]
    pub fn list(&self, side: usize, v: usize) -> &'s [u32] {
        let (offsets, entries) = self.sides[side];
        &entries[offsets[v] as usize..offsets[v + 1] as usize]
    }

    #[inline]
    pub fn fits(&self, filter: &Filter, x: u32) -> bool {
        (filter.label == 0 || self.labels[x as usize] == filter.label)
            && (filter.any_day() || (filter.first..=filter.last).contains(&self.days[x as usize]))
    }
}

/// A change: whether it adds its edge, the source, and label and target as in a forward entry.
pub type Change = (bool, u32, u32);

/// How many changes a file has, and its length in bits.
pub fn change_counts(file: &[u8]) -> Result<usize, u32> {
    if file.len() < 3 {
        return Err(27);
    }
    let k = field(file, 0, 20) as usize;
    let bits = 20 + 41 * k;
    let fill = 8 * bits.div_ceil(8) - bits;
    if file.len() != bits.div_ceil(8) || field(file, bits, fill) != 0 {
        return Err(27);
    }
    Ok(k)
}

pub fn change(file: &[u8], i: usize) -> Change {
    let at = 20 + 41 * i;
    (field(file, at, 1) == 1, field(file, at + 1, 16), field(file, at + 17, 24))
}

/// Puts a number into the next bits of a file, most significant bit first.
fn put(file: &mut [u8], at: &mut usize, width: usize, number: usize) {
    for i in (0..width).rev() {
        let bit = 1 << (7 - *at % 8);
        match number >> i & 1 {
            1 => file[*at / 8] |= bit,
            _ => file[*at / 8] &= !bit,
        }
        *at += 1;
    }
}

/// Draws the plan of a query over a graph of so many edges of each label, 0 standing for any; answers its bytes, or 24.
pub fn draw(q: &Query, counts: &[u32; 256], plan: &mut [u8]) -> Result<usize, u32> {
    let n = q.filters.len();
    let bits = 12 + 5 * (n - 2);
    let plan = plan.get_mut(..bits.div_ceil(8)).ok_or(24u32)?;
    let mut scan = 0;
    for (i, edge) in q.edges.iter().enumerate() {
        if counts[edge.2 as usize] < counts[q.edges[scan].2 as usize] {
            scan = i;
        }
    }
    let mut at = 0;
    put(plan, &mut at, 5, n - 1);
    put(plan, &mut at, 7, scan);
    let mut covered = 1u32 << q.edges[scan].0 | 1 << q.edges[scan].1;
    for _ in 2..n {
        let has = |v: usize| covered >> v & 1 == 1;
        let touches = |v: usize| q.edges.iter().filter(|e| e.0 == v && has(e.1) || e.1 == v && has(e.0)).count();
        let (mut best, mut most) = (0, 0);
        for v in (0..n).filter(|&v| !has(v)) {
            if touches(v) > most {
                (best, most) = (v, touches(v));
            }
        }
        put(plan, &mut at, 5, 1 << 3 | best);
        covered |= 1 << best;
    }
    let fill = 8 * plan.len() - at;
    put(plan, &mut at, fill, 0);
    Ok(plan.len())
}
