// How the sides are timed: in one run, interleaved.
use std::time::{Duration, Instant};

fn timed(turns: usize, mut job: impl FnMut()) -> Duration {
    let start = Instant::now();
    for _ in 0..turns {
        job();
    }
    start.elapsed()
}

// The best time of each job in microseconds. The jobs take turns in many short rounds, forth and back, so that each has its quiet
// moments and follows each neighbour.
pub fn raced(rounds: usize, jobs: &mut [&mut dyn FnMut()]) -> Vec<f64> {
    let one = timed(3, || jobs[0]()).as_secs_f64() / 3.0;
    let turns = ((0.0005 / one) as usize).max(1);
    let mut best = vec![f64::INFINITY; jobs.len()];
    for round in 0..rounds {
        for place in 0..jobs.len() {
            let k = if round % 2 == 0 { place } else { jobs.len() - 1 - place };
            best[k] = best[k].min(timed(turns, &mut jobs[k]).as_secs_f64() / turns as f64 * 1e6);
        }
    }
    best
}

// The geometric mean.
pub fn mean(ratios: &[f64]) -> f64 {
    (ratios.iter().map(|r| r.ln()).sum::<f64>() / ratios.len() as f64).exp()
}
