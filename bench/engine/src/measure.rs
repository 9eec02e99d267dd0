//! Time: of the process's own processor time, over rounds in which the versions take turns. And instructions, which repeat.

use crate::clock::now;

pub fn seconds(mut work: impl FnMut()) -> f64 {
    let start = now();
    work();
    now() - start
}

/// The numbers in the middle, a quarter from below and a quarter from above.
#[derive(Clone, Copy)]
pub struct Spread {
    pub low: f64,
    pub median: f64,
    pub high: f64,
}

impl Spread {
    pub fn of(mut numbers: Vec<f64>) -> Spread {
        numbers.sort_by(f64::total_cmp);
        let last = numbers.len() - 1;
        Spread { low: numbers[last / 4], median: numbers[last / 2], high: numbers[last - last / 4] }
    }
}

/// The measured times of N versions.
#[derive(Clone, Copy)]
pub struct Times<const N: usize> {
    /// Seconds, the medians over the rounds.
    pub seconds: [f64; N],
    /// The last version's time over each version's, round by round.
    pub ratios: [Spread; N],
}

/// How often work is repeated.
#[derive(Clone, Copy)]
pub struct Rounds {
    pub least: usize,
    /// Rounds go on until they took so many seconds, or there were `most`.
    pub seconds: f64,
    pub most: usize,
}

/// The times of versions of one work, round by round. They run once unmeasured, and then in turn, each round beginning with another: a minute in
/// which the machine is slow is slow for all.
pub fn turns(rounds: Rounds, versions: &mut [&mut dyn FnMut()]) -> Vec<Vec<f64>> {
    let n = versions.len();
    let once: f64 = versions.iter_mut().map(seconds).sum();
    let count = rounds.least.max(((rounds.seconds / once.max(1e-6)) as usize).min(rounds.most));
    let mut times = vec![vec![0.0; n]; count];
    for (round, times) in times.iter_mut().enumerate() {
        for k in 0..n {
            let i = (round + k) % n;
            times[i] = seconds(&mut versions[i]);
        }
    }
    times
}

/// The times of N versions.
pub fn race<const N: usize>(rounds: Rounds, mut versions: [&mut dyn FnMut(); N]) -> Times<N> {
    let times = turns(rounds, &mut versions);
    Times {
        seconds: std::array::from_fn(|i| Spread::of(times.iter().map(|t| t[i]).collect()).median),
        ratios: std::array::from_fn(|i| Spread::of(times.iter().map(|t| t[N - 1] / t[i]).collect())),
    }
}

/// Runs work once. A callgrind that collects in this function alone counts the work's instructions.
#[inline(never)]
pub fn counted(work: &mut dyn FnMut()) {
    work();
    std::hint::black_box(());
}
