//! A line: rule, thread, point, left and right formula, premise count, premises.

use super::frames::Frames;
use super::thread::has_action;
use super::uses::{is_outlined, is_sort, Search, ASSERTION, INTERVAL};
use super::{demand, number, numbers, Checked, LENGTH, RANGE, SORT};
use reference::checker::rules::Form;

const FIXED: usize = 8;
const PREMISES: u8 = 4;

/// The line that has so many before it.
pub fn check<S: Search>(body: &[u8], before: usize, frames: &Frames) -> Checked {
    demand(body.len() >= FIXED, LENGTH)?;
    let (fixed, premises) = body.split_at(FIXED);
    let (thread, point, count) = (fixed[1] as usize, fixed[2] as usize, fixed[7]);
    demand(premises.len() == 2 * count as usize, LENGTH)?;

    let form = Form::of_rule(fixed[0]).ok_or(RANGE)?;
    let placed = match form {
        Form::Triple => {
            (1..=frames.threads).contains(&thread) && has_action(frames.thread(thread), point)
        }
        _ => thread == 0 && point == 0,
    };
    let (left, right) = (number(fixed, 3), number(fixed, 5));
    demand(
        placed
            && frames.has_formula(left)
            && frames.has_formula(right)
            && count <= PREMISES
            && numbers(premises).all(|premise| (1..=before).contains(&premise)),
        RANGE,
    )?;

    let fits = |k: usize| match form {
        Form::Triple => is_outlined::<S>(frames.formula(k)),
        Form::Implication => is_sort(frames.formula(k), ASSERTION),
        Form::Inclusion => is_sort(frames.formula(k), INTERVAL),
    };
    demand(fits(left) && fits(right), SORT)
}
