//! Statistics of a store, made once: its vertices by label and day, and for each edge label how many edges it
//! has and sample edges by the labels of the two ends. What is kept of an edge label depends on its own edges
//! alone, so that a query sees nothing of labels it does not name.

use super::query::Filter;
use super::store::{neighbour, Direction, Store, SPAN};
use super::tables::tables;

pub const EDGE_LABELS: usize = 256;

/// The edges of one label between two classes of vertex labels.
#[derive(Clone, Copy, Debug)]
pub struct Triple {
    /// Class of the source's label, and of the target's.
    pub source: u32,
    pub target: u32,
    /// How many there are: exact where all edges of the label are sample edges, else about.
    pub count: u32,
    /// Its sample edges, evenly over all: where they begin in the pool, and how many.
    pub pool: u32,
    pub pooled: u32,
}

/// A label that vertices have: its place by frequency, and how many have it.
#[derive(Clone, Copy, Debug)]
pub struct VertexLabel {
    pub label: u32,
    pub rank: u32,
    pub vertices: u32,
}

/// What is known of an edge label.
#[derive(Clone, Debug, Default)]
pub struct EdgeLabel {
    pub count: u32,
    /// All its edges are sample edges.
    pub whole: bool,
    pub classes: usize,
    /// By source class, then target class; those of a source class from `starts[class]` to `starts[class +
    /// 1]`.
    pub triples: Vec<Triple>,
    pub starts: Vec<u32>,
    /// For each class the edges with such a source, and with such a target; and the vertices of such a
    /// label.
    pub totals: [Vec<u32>; 2],
    pub vertices: Vec<u32>,
}

/// Statistics of a store.
#[derive(Clone, Debug)]
pub struct Statistics {
    /// The vertices, each as label × 65,536 + number, by day; and by label, then day.
    by_day: Vec<u32>,
    by_label: Vec<u32>,
    labels: Vec<VertexLabel>,
    edge_labels: Vec<EdgeLabel>,
    /// Sample edges, as source × 65,536 + target.
    pub pool: Vec<u32>,
}

/// The class of a label of a rank: the most frequent have one of their own, and a quarter of the classes is
/// shared by the rest.
pub fn class_of(rank: usize, labels: usize, classes: usize) -> usize {
    let own = if labels <= classes { classes } else { classes - classes / 4 };
    if rank < own {
        return rank;
    }
    own + (rank - own) % (classes - own)
}

/// Vertices as a stable counting sort by a key up to `most` leaves them, and for each key where its vertices
/// end.
fn sorted(order: &[u32], most: u32, key: impl Fn(u32) -> u32) -> (Vec<u32>, Vec<u32>) {
    let mut places = vec![0u32; most as usize + 1];
    if order.iter().all(|&x| key(x) == most) {
        places[most as usize] = order.len() as u32;
        return (order.to_vec(), places);
    }
    order.iter().for_each(|&x| places[key(x) as usize] += 1);
    let mut sum = 0;
    for place in &mut places {
        let count = *place;
        *place = sum;
        sum += count;
    }
    let mut out = vec![0; order.len()];
    for &x in order {
        let place = &mut places[key(x) as usize];
        out[*place as usize] = x;
        *place += 1;
    }
    (out, places)
}

fn most(numbers: &[u32]) -> u32 {
    numbers.iter().copied().max().unwrap_or(0)
}

/// The labels that vertices have, by label, from where the vertices of each end.
fn vertex_labels(ends: &[u32]) -> Vec<VertexLabel> {
    let (mut labels, mut start) = (Vec::new(), 0);
    for (label, &end) in ends.iter().enumerate() {
        if end > start {
            labels.push(VertexLabel { label: label as u32, rank: 0, vertices: end - start });
        }
        start = end;
    }
    let mut order: Vec<usize> = (0..labels.len()).collect();
    order.sort_by_key(|&i| (u32::MAX - labels[i].vertices, labels[i].label));
    for (rank, &i) in order.iter().enumerate() {
        labels[i].rank = rank as u32;
    }
    labels
}

impl Statistics {
    /// Of a store that Load wrote; nothing where words are missing.
    pub fn of(words: &[u32]) -> Option<Statistics> {
        let store = Store::of(words)?;
        let all: Vec<u32> = (0..).zip(store.labels).map(|(v, label)| label * SPAN + v).collect();
        let (by_day, _) = sorted(&all, most(store.days), |x| store.days[neighbour(x) as usize]);
        let (by_label, ends) = sorted(&by_day, most(store.labels), |x| x / SPAN);
        let labels = vertex_labels(&ends);
        let (edge_labels, pool) = tables(&store, &labels);
        Some(Statistics { by_day, by_label, labels, edge_labels, pool })
    }

    fn vertex_label(&self, label: u32) -> Option<&VertexLabel> {
        self.labels.binary_search_by_key(&label, |known| known.label).ok().map(|i| &self.labels[i])
    }

    /// How many vertices have a label; label 0 stands for every one.
    pub fn labelled(&self, label: u32) -> f64 {
        match label {
            0 => self.by_day.len() as f64,
            _ => self.vertex_label(label).map_or(0.0, |known| f64::from(known.vertices)),
        }
    }

    /// The vertices that fit a query vertex, each as label × 65,536 + number.
    pub fn fitting(&self, store: &Store, filter: &Filter) -> &[u32] {
        let day = |x: u32| store.days[neighbour(x) as usize];
        let (first, last) = (filter.first, filter.last);
        if filter.label == 0 {
            let from = self.by_day.partition_point(|&x| day(x) < first);
            let to = self.by_day.partition_point(|&x| day(x) <= last);
            return &self.by_day[from..to.max(from)];
        }
        let from = self.by_label.partition_point(|&x| (x / SPAN, day(x)) < (filter.label, first));
        let to = self.by_label.partition_point(|&x| (x / SPAN, day(x)) <= (filter.label, last));
        &self.by_label[from..to.max(from)]
    }

    /// An edge label with what is known of it, where it occurs, and for label 0 each that does.
    pub fn numbered_edge_labels(&self, label: u32) -> impl Iterator<Item = (u32, &EdgeLabel)> + '_ {
        let range = if label == 0 { 0..EDGE_LABELS } else { label as usize..label as usize + 1 };
        range.map(move |l| (l as u32, &self.edge_labels[l])).filter(|(_, known)| known.count > 0)
    }

    /// What is known of an edge label, and for label 0 of each that occurs.
    pub fn edge_labels(&self, label: u32) -> impl Iterator<Item = &EdgeLabel> + '_ {
        self.numbered_edge_labels(label).map(|(_, known)| known)
    }

    /// How many edges of a label leave (or reach) the vertices of a label, about: where a class has several
    /// labels, as if each vertex of it had as many.
    pub fn edges_at(&self, direction: Direction, label: u32, vertex_label: u32) -> f64 {
        let mut sum = 0.0;
        for known in self.edge_labels(label) {
            sum += match self.class(known, vertex_label) {
                Class::Any => f64::from(known.count),
                Class::None => 0.0,
                Class::Of(class, share) => {
                    share * f64::from(known.totals[direction as usize][class as usize])
                }
            };
        }
        sum
    }

    /// How many edges of a label run from a vertex label to another, about.
    pub fn edges_between(&self, label: u32, source: u32, target: u32) -> f64 {
        let mut sum = 0.0;
        for known in self.edge_labels(label) {
            let share = self.class(known, source).share() * self.class(known, target).share();
            self.triples(known, source, target, &mut |triple| sum += share * f64::from(triple.count));
        }
        sum
    }

    /// The triples of an edge label that may have edges from a vertex label to another.
    pub fn triples<'s>(
        &self,
        known: &'s EdgeLabel,
        source: u32,
        target: u32,
        each: &mut dyn FnMut(&'s Triple),
    ) {
        let sources = match self.class(known, source) {
            Class::None => return,
            Class::Any => 0..known.classes,
            Class::Of(class, _) => class as usize..class as usize + 1,
        };
        let targets = self.class(known, target);
        for class in sources {
            let row = &known.triples[known.starts[class] as usize..known.starts[class + 1] as usize];
            match targets {
                Class::None => return,
                Class::Any => row.iter().for_each(&mut *each),
                Class::Of(target, _) => {
                    if let Ok(i) = row.binary_search_by_key(&target, |triple| triple.target) {
                        each(&row[i]);
                    }
                }
            }
        }
    }

    /// The class that a vertex label has for an edge label.
    fn class(&self, known: &EdgeLabel, label: u32) -> Class {
        if label == 0 {
            return Class::Any;
        }
        match self.vertex_label(label) {
            None => Class::None,
            Some(found) => {
                let class = class_of(found.rank as usize, self.labels.len(), known.classes);
                Class::Of(class as u32, f64::from(found.vertices) / f64::from(known.vertices[class]))
            }
        }
    }
}

/// Where a vertex label stands in an edge label's table: everywhere, nowhere, or in a class, with its share
/// of the class's vertices.
#[derive(Clone, Copy)]
enum Class {
    Any,
    None,
    Of(u32, f64),
}

impl Class {
    fn share(self) -> f64 {
        match self {
            Class::Of(_, share) => share,
            _ => 1.0,
        }
    }
}
