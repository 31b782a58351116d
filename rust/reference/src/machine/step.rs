//! One step of the machine.

use super::state::{State, View, Write};
use crate::formula::evaluate::sum;
use crate::formula::Value;
use crate::image::{Access, Instruction, Thread};

/// A thread number and a position in the row of the access's word;
/// the position is 0 for a branch and where there is no access.
#[derive(Clone, Copy, Debug, PartialEq, Eq)]
pub struct Step {
    pub thread: u8,
    pub position: usize,
}

/// The state after the step; none if the step is refused.
pub fn take(threads: &[Thread], state: &State, step: Step) -> Option<State> {
    let index = usize::from(step.thread).checked_sub(1)?;
    let point = *state.points.get(index)?;
    match threads.get(index)?.get(usize::from(point))? {
        Instruction::Act { access, notes } => {
            let mut next = match access {
                Some(access) => perform(state, step, access)?,
                None => unmoved(state, step)?,
            };
            for note in notes {
                next.registers[usize::from(note.register) - 1] = evaluated(&note.value, state);
            }
            next.points[index] = point + 1;
            Some(next)
        }
        Instruction::Branch { test, target } => {
            let taken = test.evaluate(&state.seen_at(View::default()));
            let mut next = unmoved(state, step)?;
            next.points[index] = if taken { *target } else { point + 1 };
            Some(next)
        }
    }
}

/// The state itself, for a step that touches no shared word: its position is 0.
fn unmoved(state: &State, step: Step) -> Option<State> {
    (step.position == 0).then(|| state.clone())
}

/// What the access does to rows, views and its own register.
fn perform(state: &State, step: Step, access: &Access) -> Option<State> {
    match access {
        Access::Load { register, word, acquiring } => {
            load(state, step, *register, *word, *acquiring)
        }
        Access::Store { word, value, releasing } => {
            let kind = Kind { releasing: *releasing, swap: false };
            write(state, step, *word, evaluated(value, state), kind)
        }
        Access::Swap { word, value } => {
            write(state, step, *word, evaluated(value, state), Kind::SWAP)
        }
        Access::Exchange { register, word, value } => {
            let new = evaluated(value, state);
            fetch(state, step, *register, *word, |_| new)
        }
        Access::FetchAdd { register, word, value } => {
            let more = evaluated(value, state);
            fetch(state, step, *register, *word, |old| sum(old, more, state.range))
        }
    }
}

/// An instruction's value. It asks registers only, so the view does not matter.
fn evaluated(value: &Value, state: &State) -> u8 {
    value.evaluate(&state.seen_at(View::default()))
}

/// The position, if the row has it and it is at or after the thread's own.
fn reached(state: &State, step: Step, word: u8) -> Option<u8> {
    let own = usize::from(state.view(step.thread).at(word));
    let there = own <= step.position && step.position < state.row(word).len();
    there.then_some(step.position as u8)
}

fn load(state: &State, step: Step, register: u8, word: u8, acquiring: bool) -> Option<State> {
    let position = reached(state, step, word)?;
    let read = state.row(word)[step.position];
    let view = state.view(step.thread);
    let mut next = state.clone();
    next.views[usize::from(step.thread) - 1] = if acquiring && read.releasing {
        view.joined(&read.stored)
    } else {
        view.moved(word, position)
    };
    next.registers[usize::from(register) - 1] = read.value;
    Some(next)
}

/// How a write is made: releasing or not, covering the picked write or not.
struct Kind {
    releasing: bool,
    swap: bool,
}

impl Kind {
    const SWAP: Kind = Kind { releasing: true, swap: true };
}

/// A swap by what `new` makes of the old value, which goes to the register.
fn fetch(
    state: &State,
    step: Step,
    register: u8,
    word: u8,
    new: impl Fn(u8) -> u8,
) -> Option<State> {
    let picked = reached(state, step, word)?;
    let old = state.row(word)[usize::from(picked)].value;
    let mut next = write(state, step, word, new(old), Kind::SWAP)?;
    next.registers[usize::from(register) - 1] = old;
    Some(next)
}

fn write(state: &State, step: Step, word: u8, value: u8, kind: Kind) -> Option<State> {
    let picked = reached(state, step, word)?;
    if state.row(word)[step.position].covered {
        return None;
    }
    let mut next = make_room(state, word, picked);
    let row = usize::from(word) - 1;
    let behind = next.rows[row][step.position];
    let mut view = next.view(step.thread).moved(word, picked + 1);
    if kind.swap {
        next.rows[row][step.position].covered = true;
        if behind.releasing {
            view = view.joined(&behind.stored);
        }
    }
    let new = Write { value, releasing: kind.releasing, covered: false, stored: view };
    next.rows[row].insert(step.position + 1, new);
    next.views[usize::from(step.thread) - 1] = view;
    Some(next)
}

/// The state with every view renumbered for a write directly behind `picked`.
fn make_room(state: &State, word: u8, picked: u8) -> State {
    let mut next = state.clone();
    for view in &mut next.views {
        *view = view.renumbered(word, picked);
    }
    for write in next.rows.iter_mut().flatten() {
        write.stored = write.stored.renumbered(word, picked);
    }
    next
}
