//! How long tasks take.

use std::time::Instant;

const ROUNDS: usize = 100;
const PASSES: usize = 10;

/// The best time of each task, in seconds. The best, and by turns, since the machine may be busy: what
/// else runs only makes a round longer.
pub fn best(tasks: &[Box<dyn Fn() + '_>]) -> Vec<f64> {
    let mut best = vec![f64::MAX; tasks.len()];
    for _ in 0..ROUNDS {
        for (seconds, task) in best.iter_mut().zip(tasks) {
            let start = Instant::now();
            for _ in 0..PASSES {
                task();
            }
            *seconds = seconds.min(start.elapsed().as_secs_f64() / PASSES as f64);
        }
    }
    best
}

/// The speed of each task over so many bytes or rows, the unit a million of them in a second, and how
/// long the first takes beside the others.
pub fn print(names: &[&str], amount: usize, unit: &str, seconds: &[f64]) {
    for (name, own) in names.iter().zip(seconds) {
        println!("{name}: {:.4} ms, {:.0} {unit}", own * 1e3, amount as f64 / own / 1e6);
    }
    for (name, own) in names.iter().zip(seconds).skip(1) {
        println!("{} takes {:.2} times as long as {name}", names[0], seconds[0] / own);
    }
}
