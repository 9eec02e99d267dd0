//! A number made of many picks, plans and estimates to the last bit: two machines that pick alike have the
//! same.
use crate::patterns::{packed, pattern};
use crate::picker::store::{Store, SPAN};
use crate::picker::{pick, Statistics, MAX_WORDS};
use crate::random::Random;
use std::collections::BTreeSet;

/// The words that Load writes for a graph.
fn store_words(labels: &[u32], days: &[u32], edges: &BTreeSet<(u32, u32, u32)>) -> Vec<u32> {
    let n = labels.len();
    let mut words = vec![n as u32, edges.len() as u32];
    words.extend(labels);
    words.extend(days);
    let backward: BTreeSet<_> =
        edges.iter().map(|&(source, label, target)| (target, label, source)).collect();
    for side in [edges, &backward] {
        let mut offsets = vec![0; n + 1];
        side.iter().for_each(|edge| offsets[edge.0 as usize + 1] += 1);
        (0..n).for_each(|v| offsets[v + 1] += offsets[v]);
        words.extend(offsets);
        words.extend(side.iter().map(|&(_, label, neighbour)| label * SPAN + neighbour));
    }
    words
}

/// A graph with hubs, of some vertex labels and edge labels.
fn random_words(n: usize, m: usize, random: &mut Random) -> Vec<u32> {
    let labels: Vec<u32> = (0..n).map(|_| random.below(7) as u32).collect();
    let days: Vec<u32> = (0..n).map(|_| random.below(3_000) as u32).collect();
    let mut edges = BTreeSet::new();
    while edges.len() < m {
        let mut end = || {
            let most = random.below(n);
            random.below(1 + most) as u32
        };
        let (source, target) = (end(), end());
        edges.insert((source, 1 + random.below(5) as u32, target));
    }
    store_words(&labels, &days, &edges)
}

/// The number of so many picks over each of three graphs.
pub fn digest(picks: usize) -> u64 {
    let mut random = Random::new(2_000);
    let mut sum = 0xCBF2_9CE4_8422_2325u64;
    let mut take = |number: u64| sum = (sum ^ number).wrapping_mul(0x0000_0100_0000_01B3).rotate_left(29);
    for (n, m) in [(60, 150), (3_000, 12_000), (20_000, 60_000)] {
        let words = random_words(n, m, &mut random);
        let store = Store::of(&words).expect("a store");
        let statistics = Statistics::of(&words).expect("a store");
        for _ in 0..picks {
            let vertices = 2 + random.below(7);
            if let Some(query) = pattern(&store, vertices, &mut random) {
                let picked = pick(&words, &statistics, &packed(&query), MAX_WORDS).expect("a plan");
                picked.plan.iter().for_each(|&byte| take(byte.into()));
                for estimate in &picked.operators {
                    take(estimate.rows.to_bits());
                    take(estimate.time.to_bits());
                }
                take(picked.need.to_bits());
                take(picked.scratch);
                take(picked.list);
            }
        }
    }
    sum
}
