//! A packed query as the picker uses it, and the operators of a plan.

use super::store::Direction;

/// The most vertices of a query.
pub const MAX_VERTICES: usize = 8;
const MAX_EDGES: usize = 24;

/// A set of query vertices, vertex v as bit v.
pub type Set = u32;

/// What a query vertex asks: a label, 0 for any, and a first and a last day.
#[derive(Clone, Copy, Debug, PartialEq, Eq)]
pub struct Filter {
    pub label: u32,
    pub first: u32,
    pub last: u32,
}

impl Filter {
    pub fn any_day(&self) -> bool {
        self.first == 0 && self.last == 65_535
    }

    /// Whether it asks nothing.
    pub fn any(&self) -> bool {
        self.label == 0 && self.any_day()
    }
}

/// A query edge; label 0 is any.
#[derive(Clone, Copy, Debug, PartialEq, Eq)]
pub struct Edge {
    pub from: usize,
    pub to: usize,
    pub label: u32,
}

impl Edge {
    /// Its two ends.
    pub fn ends(&self) -> Set {
        1 << self.from | 1 << self.to
    }
}

/// An adjacency list descriptor: the list of a covered vertex that an extend intersects.
#[derive(Clone, Copy, Debug, PartialEq, Eq)]
pub struct Descriptor {
    pub vertex: usize,
    pub direction: Direction,
    pub label: u32,
}

/// An operator of a plan.
#[derive(Clone, Copy, Debug, PartialEq, Eq)]
pub enum Operator {
    /// The query edge of an index.
    Scan(usize),
    /// A query vertex.
    Extend(usize),
    Join,
}

#[derive(Clone, Debug)]
pub struct Query {
    pub filters: Vec<Filter>,
    pub edges: Vec<Edge>,
    /// The first's vertex is to be below the second's.
    pub pairs: Vec<(usize, usize)>,
    /// For each vertex those that share an edge with it.
    near: [Set; MAX_VERTICES],
}

/// The fields of a file, most significant bit first.
struct Fields<'f> {
    file: &'f [u8],
    bit: usize,
}

impl Fields<'_> {
    fn take(&mut self, width: usize) -> Option<usize> {
        let mut number = 0;
        for _ in 0..width {
            let byte = *self.file.get(self.bit / 8)?;
            number = number << 1 | usize::from(byte >> (7 - self.bit % 8) & 1);
            self.bit += 1;
        }
        Some(number)
    }
}

impl Query {
    /// The query of a file that Read query accepts. Of a file that it refuses, nothing where vertices,
    /// edges, their ends or the connection of the whole are at fault.
    pub fn read(file: &[u8]) -> Option<Query> {
        let mut fields = Fields { file, bit: 0 };
        let (n, m) = (fields.take(4)?, fields.take(5)?);
        let mut filters = Vec::with_capacity(n);
        for _ in 0..n {
            let [label, first, last] =
                [fields.take(16)? as u32, fields.take(16)? as u32, fields.take(16)? as u32];
            filters.push(Filter { label, first, last });
        }
        let mut edges = Vec::with_capacity(m);
        for _ in 0..m {
            edges.push(Edge { from: fields.take(3)?, to: fields.take(3)?, label: fields.take(8)? as u32 });
        }
        let count = fields.take(4)?;
        let mut pairs = Vec::with_capacity(count);
        for _ in 0..count {
            pairs.push((fields.take(3)?, fields.take(3)?));
        }
        Query::new(filters, edges, pairs)
    }

    /// A query; nothing where its vertices, edges, ends or connection are at fault.
    pub fn new(filters: Vec<Filter>, edges: Vec<Edge>, pairs: Vec<(usize, usize)>) -> Option<Query> {
        let n = filters.len();
        let known = |&(a, b): &(usize, usize)| a < n && b < n && a != b;
        let within = (2..=MAX_VERTICES).contains(&n) && (1..=MAX_EDGES).contains(&edges.len());
        if !within || !edges.iter().all(|edge| known(&(edge.from, edge.to))) || !pairs.iter().all(known) {
            return None;
        }
        let mut near = [0; MAX_VERTICES];
        for edge in &edges {
            near[edge.from] |= 1 << edge.to;
            near[edge.to] |= 1 << edge.from;
        }
        let query = Query { filters, edges, pairs, near };
        let mut reached: Set = 1;
        for _ in 0..n {
            reached |= query.next(reached).fold(0, |set, v| set | 1 << v);
        }
        if reached == query.all() {
            Some(query)
        } else {
            None
        }
    }

    /// How many vertices it has.
    pub fn vertices(&self) -> usize {
        self.filters.len()
    }

    /// All its vertices.
    pub fn all(&self) -> Set {
        (1 << self.vertices()) - 1
    }

    /// Those of a set that share an edge with a vertex.
    pub fn used(&self, set: Set, v: usize) -> Set {
        self.near[v] & set
    }

    /// The vertices by which a set may be extended.
    pub fn next(&self, set: Set) -> impl Iterator<Item = usize> + '_ {
        (0..self.vertices()).filter(move |&v| set >> v & 1 == 0 && self.near[v] & set != 0)
    }

    /// Whether a query edge runs between two sets.
    pub fn joined(&self, one: Set, other: Set) -> bool {
        (0..self.vertices()).any(|v| one >> v & 1 == 1 && self.near[v] & other != 0)
    }

    /// What an extend of a set by a vertex intersects, in the order of the query edges.
    pub fn descriptors(&self, set: Set, v: usize) -> Vec<Descriptor> {
        let mut found = Vec::with_capacity(4);
        for edge in &self.edges {
            if edge.to == v && set >> edge.from & 1 == 1 {
                found.push(Descriptor {
                    vertex: edge.from,
                    direction: Direction::Forward,
                    label: edge.label,
                });
            } else if edge.from == v && set >> edge.to & 1 == 1 {
                found.push(Descriptor { vertex: edge.to, direction: Direction::Backward, label: edge.label });
            }
        }
        found
    }
}

/// The packed file of a plan: operator count (5 bits), then kinds (2), with an edge's index (5) or a vertex
/// (3).
pub fn pack(plan: &[Operator]) -> Vec<u8> {
    let (mut bytes, mut bits) = (Vec::new(), 0);
    let mut put = |number: usize, width: usize| {
        for i in (0..width).rev() {
            if bits % 8 == 0 {
                bytes.push(0);
            }
            bytes[bits / 8] |= ((number >> i & 1) as u8) << (7 - bits % 8);
            bits += 1;
        }
    };
    put(plan.len(), 5);
    for operator in plan {
        match *operator {
            Operator::Scan(edge) => {
                put(0, 2);
                put(edge, 5);
            }
            Operator::Extend(vertex) => {
                put(1, 2);
                put(vertex, 3);
            }
            Operator::Join => put(2, 2),
        }
    }
    bytes
}

/// The operators of a plan file that Check plan accepts; nothing where its bits run out or a kind is 3.
pub fn unpack(file: &[u8]) -> Option<Vec<Operator>> {
    let mut fields = Fields { file, bit: 0 };
    let mut plan = Vec::new();
    for _ in 0..fields.take(5)? {
        plan.push(match fields.take(2)? {
            0 => Operator::Scan(fields.take(5)?),
            1 => Operator::Extend(fields.take(3)?),
            2 => Operator::Join,
            _ => return None,
        });
    }
    Some(plan)
}

#[cfg(test)]
mod tests {
    use super::*;

    const TRIANGLE: [u8; 25] = [
        0x31, 0x80, 0x00, 0x00, 0x00, 0x7f, 0xff, 0x80, 0x00, 0x00, 0x00, 0x7f, 0xff, 0x80, 0x00, 0x00, 0x00,
        0x7f, 0xff, 0x82, 0x02, 0x10, 0x09, 0x40, 0x20,
    ];

    #[test]
    fn the_triangle_is_read() {
        let query = Query::read(&TRIANGLE).expect("an accepted query");
        let ends: Vec<_> = query.edges.iter().map(|edge| (edge.from, edge.to, edge.label)).collect();
        assert_eq!(ends, [(0, 1, 1), (0, 2, 1), (1, 2, 1)]);
        assert!(query.filters.iter().all(Filter::any));
        assert_eq!(query.descriptors(0b011, 2).len(), 2);
        assert_eq!(query.next(0b001).collect::<Vec<_>>(), [1, 2]);
        assert!((0..TRIANGLE.len()).all(|len| Query::read(&TRIANGLE[..len]).is_none()));
    }

    #[test]
    fn a_query_in_two_parts_is_none() {
        let any = Filter { label: 0, first: 0, last: 65_535 };
        let edges = vec![Edge { from: 0, to: 1, label: 1 }, Edge { from: 3, to: 2, label: 1 }];
        assert!(Query::new(vec![any; 4], edges, Vec::new()).is_none());
    }

    #[test]
    fn plans_are_packed() {
        let plan = [Operator::Scan(0), Operator::Extend(2)];
        assert_eq!(pack(&plan), [0x10, 0x05, 0x00]);
        let plan =
            [Operator::Scan(2), Operator::Extend(0), Operator::Scan(2), Operator::Extend(3), Operator::Join];
        assert_eq!(unpack(&pack(&plan)).as_deref(), Some(&plan[..]));
        assert_eq!(unpack(&[0x10]), None);
    }
}
