//! The outline, with a formula for each point, and the obligations record, with a line for each
//! obligation.

use super::frames::Frames;
use super::thread::{branches, points};
use super::uses::{is_outlined, Search};
use super::{demand, numbers, Checked, LENGTH, RANGE, SORT};

pub fn check_outline<S: Search>(body: &[u8], frames: &Frames) -> Checked {
    let all: usize = (1..=frames.threads).map(|t| points(frames.thread(t))).sum();
    demand(body.len() == 2 * all, LENGTH)?;
    demand(numbers(body).all(|k| frames.has_formula(k)), RANGE)?;
    demand(numbers(body).all(|k| is_outlined::<S>(frames.formula(k))), SORT)
}

/// A thread's instructions that are no branches.
fn actions(body: &[u8]) -> usize {
    points(body) - 1 - branches(body)
}

/// For each thread its start, a step for each instruction and one more for each branch, and each point
/// with each action of another thread.
fn obligations(frames: &Frames) -> usize {
    let threads = || (1..=frames.threads).map(|t| frames.thread(t));
    let all: usize = threads().map(actions).sum();
    threads().map(|body| points(body) + branches(body) + points(body) * (all - actions(body))).sum()
}

pub fn check_obligations(body: &[u8], frames: &Frames) -> Checked {
    demand(body.len() == 2 * obligations(frames), LENGTH)?;
    demand(numbers(body).all(|line| line <= frames.lines), RANGE)
}
