//! Means over the different vertices of an end: the cache computes an extend that uses one end only once
//! for each of its vertices.

use super::time::Work;

/// Sums over the rows of two ends, each row weighed by one over the rows that share an end's vertex, so
/// that each vertex counts once.
#[derive(Default)]
pub struct Ends {
    /// For each end the weights, and the times and hits by them.
    sums: [(f64, f64, f64); 2],
    /// The time of the rows so far.
    time: f64,
}

impl Ends {
    /// Takes in a row by how many rows share the vertex of each end, from the work of all rows up to it.
    pub fn put(&mut self, degrees: &[f64; 2], work: &Work, hit: f64) {
        let time = work.time();
        for (sum, degree) in self.sums.iter_mut().zip(degrees) {
            let weight = 1.0 / degree.max(1.0);
            *sum = (sum.0 + weight, sum.1 + weight * (time - self.time), sum.2 + weight * hit);
        }
        self.time = time;
    }

    /// The means of time and hits for each end; those over the rows where nothing was weighed.
    pub fn means(&self, time: f64, hit: f64) -> [(f64, f64); 2] {
        self.sums.map(|(weight, times, hits)| {
            let mean = |sum: f64, other: f64| if sum > 0.0 { sum / weight } else { other };
            (mean(times, time), mean(hits, hit))
        })
    }
}
