//! Medians of two tasks that take turns.

use std::time::Instant;

/// One sample lasts at least so long, in seconds: a short task is repeated within it.
const SAMPLE: f64 = 100e-6;
/// All samples together last about so long, unless that makes too few or too many.
const ALL: f64 = 4.0;
const FEWEST: usize = 11;
const MOST: usize = 4001;

/// The median time of each task, in seconds.
pub fn medians(first: impl Fn(), second: impl Fn()) -> [f64; 2] {
    let passes = [passes(&first), passes(&second)];
    let round = sample(&first, passes[0]) * passes[0] as f64
        + sample(&second, passes[1]) * passes[1] as f64;
    let rounds = ((ALL / round) as usize).clamp(FEWEST, MOST);
    let (mut firsts, mut seconds) = (Vec::new(), Vec::new());
    for _ in 0..rounds {
        firsts.push(sample(&first, passes[0]));
        seconds.push(sample(&second, passes[1]));
    }
    [median(firsts), median(seconds)]
}

/// How often a task is done in one sample.
fn passes(task: impl Fn()) -> usize {
    let mut passes = 1;
    while sample(&task, passes) * (passes as f64) < SAMPLE {
        passes *= 2;
    }
    passes
}

/// The time of one pass, as a mean over so many.
fn sample(task: impl Fn(), passes: usize) -> f64 {
    let start = Instant::now();
    for _ in 0..passes {
        task();
    }
    start.elapsed().as_secs_f64() / passes as f64
}

/// The sample in the middle.
pub fn median(mut samples: Vec<f64>) -> f64 {
    samples.sort_by(f64::total_cmp);
    samples[samples.len() / 2]
}
