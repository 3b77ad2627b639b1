//! Takes the times of a job.

use std::time::{Duration, Instant};

use crate::jobs::{Job, Worker};

const ROUNDS: usize = 15;
const WARM_UP_ROUNDS: usize = 2;
const ROUND: Duration = Duration::from_millis(20);

/// Nanoseconds for doing a job once, by each worker, and the library's by the others'.
pub struct Comparison {
    pub library: f64,
    pub vectors: f64,
    pub fixed: f64,
    pub by_vectors: f64,
    pub by_fixed: f64,
}

/// Measures all workers in turn.
pub fn compare(job: &mut Job) -> Comparison {
    let times = Worker::ALL.map(|worker| times_in_a_round(job, worker));
    for _ in 0..WARM_UP_ROUNDS {
        round(job, times);
    }
    let rounds: Vec<[f64; 3]> = (0..ROUNDS).map(|_| round(job, times)).collect();
    let median_of = |number: fn(&[f64; 3]) -> f64| median(rounds.iter().map(number).collect());
    Comparison {
        library: median_of(|round| round[0]),
        vectors: median_of(|round| round[1]),
        fixed: median_of(|round| round[2]),
        by_vectors: median_of(|round| round[0] / round[1]),
        by_fixed: median_of(|round| round[0] / round[2]),
    }
}

fn round(job: &mut Job, times: [u32; 3]) -> [f64; 3] {
    let mut nanoseconds = [0.0; 3];
    for (place, worker) in Worker::ALL.into_iter().enumerate() {
        nanoseconds[place] = total(job, worker, times[place]).as_nanos() as f64 / f64::from(times[place]);
    }
    nanoseconds
}

/// How often the job can be done in a round.
fn times_in_a_round(job: &mut Job, worker: Worker) -> u32 {
    let mut times = 1;
    while total(job, worker, times) < ROUND {
        times *= 2;
    }
    times
}

fn total(job: &mut Job, worker: Worker, times: u32) -> Duration {
    let start = Instant::now();
    job.work(worker, times);
    start.elapsed()
}

fn median(mut numbers: Vec<f64>) -> f64 {
    numbers.sort_by(f64::total_cmp);
    numbers[numbers.len() / 2]
}

#[cfg(test)]
mod tests {
    use super::median;

    #[test]
    fn the_median_is_in_the_middle() {
        assert_eq!(median(vec![9.0, 1.0, 5.0]), 5.0);
    }
}
