//! A shortest run that breaks an outline, in one line.

use crate::text::source::Source;
use reference::explore::{explore, Bounds, Break, Fault, Outcome};
use reference::image::{Access, Meeting};
use reference::machine::{take, State, Step};

/// Every wrong variant breaks within these.
const BOUNDS: Bounds = Bounds { steps: 10, ..Bounds::DEFAULT };

/// All states of an outline that stays open are within these: loops come back to states that were seen.
const ALL: Bounds = Bounds { steps: 60, ..BOUNDS };

/// A shortest run that makes an assertion or a claim false, if there is one.
pub fn breaking(source: &Source) -> Option<Break> {
    match explore(&source.program(), &source.meetings(), BOUNDS).outcome {
        Outcome::Breaks(broken) => Some(broken),
        Outcome::Holds { .. } => None,
    }
}

/// Whether the bounds leave no state out and every assertion and claim is true in each.
pub fn is_true_in_all_states(source: &Source) -> bool {
    explore(&source.program(), &source.meetings(), ALL).outcome == Outcome::Holds { all: true }
}

/// The run step by step, and what is false at its end.
pub fn words(source: &Source, broken: &Break) -> String {
    let mut state = broken.start.clone();
    let mut parts: Vec<String> = starts(source, &state).into_iter().collect();
    for &step in &broken.run {
        let next = take(&source.threads, &state, step).expect("a step of the run");
        parts.push(step_words(source, &state, &next, step));
        state = next;
    }
    format!("{}. Now {}", parts.join("; "), fault(source, &state, broken.fault))
}

/// What is wrong at the end of the run.
fn fault(source: &Source, state: &State, fault: Fault) -> String {
    let named = |thread: u8, point: u8| format!("{}'s point {point}", source.names.thread(thread));
    match fault {
        Fault::Assertion { thread } => {
            format!("false: {}", named(thread, state.points[usize::from(thread) - 1]))
        }
        Fault::Claim(Meeting { thread, point, other_thread, other_point }) => {
            format!("together: {} and {}", named(thread, point), named(other_thread, other_point))
        }
    }
}

/// The open registers that do not start at 0.
fn starts(source: &Source, state: &State) -> Option<String> {
    let set = (1..).zip(&state.registers).filter(|(_, value)| **value != 0);
    let named: Vec<String> =
        set.map(|(r, value)| format!("{} = {value}", source.names.register(r))).collect();
    (!named.is_empty()).then(|| format!("start with {}", named.join(", ")))
}

fn step_words(source: &Source, before: &State, after: &State, step: Step) -> String {
    let thread = source.names.thread(step.thread);
    let point = before.points[usize::from(step.thread) - 1];
    let instruction = &source.threads[usize::from(step.thread) - 1][usize::from(point)];
    let text = format!("{thread} `{}`", source.names.instruction(step.thread, instruction));
    let Some(access) = instruction.access() else {
        return match instruction.is_branch() {
            true => format!("{text} goes to {}", after.points[usize::from(step.thread) - 1]),
            false => text,
        };
    };
    let row = before.row(access.word());
    let picked = row[step.position].value;
    let last = step.position + 1 == row.len();
    match access {
        Access::Load { .. } | Access::Exchange { .. } | Access::FetchAdd { .. } => {
            format!("{text} reads {picked}")
        }
        Access::Store { .. } | Access::Swap { .. } if last => text,
        Access::Store { .. } | Access::Swap { .. } => format!("{text} behind {picked}, not last"),
    }
}
