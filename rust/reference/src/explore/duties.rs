//! Which obligations a run breaks: what they take for granted is true before a step, what they claim is false after it.

use super::search::{steps_from, Bounds, Cut, Search};
use super::truth::is_true;
use crate::checker::obligations::Duty;
use crate::image::{Program, Statement};
use crate::machine::{State, Step};

/// A start state and steps from it.
#[derive(Clone, Debug, PartialEq, Eq)]
pub struct Run {
    pub start: State,
    pub steps: Vec<Step>,
}

/// What a search for breaking runs has found.
#[derive(Clone, Debug, PartialEq, Eq)]
pub struct Sought {
    /// For each obligation a shortest run that breaks it.
    pub runs: Vec<Option<Run>>,
    pub states: usize,
    /// Every run of up to so many steps was looked at, as far as the other bounds let it.
    pub steps: usize,
    pub bounds: Bounds,
    pub cut: Cut,
    /// Whether these were all runs.
    pub all: bool,
}

/// A shortest run to a state that is wanted.
pub fn find(program: &Program, bounds: Bounds, wanted: &dyn Fn(&State) -> bool) -> Sought {
    let mut search = Search::new(program, bounds);
    let found = search.first(&|state| wanted(state).then_some(()));
    let run = found.map(|(index, ())| run_to(&search, index));
    sought(&search, search.len(), vec![run])
}

fn run_to(search: &Search, index: usize) -> Run {
    let (start, steps) = search.run_to(index);
    Run { start, steps }
}

fn sought(search: &Search, states: usize, runs: Vec<Option<Run>>) -> Sought {
    let all = states == search.len() && !search.cut.any();
    Sought { runs, states, steps: search.steps, bounds: search.bounds, cut: search.cut, all }
}

/// Looks for runs that break the obligations.
pub fn seek(program: &Program, duties: &[Duty], bounds: Bounds) -> Sought {
    let mut search = Search::new(program, bounds);
    let mut runs: Vec<Option<Run>> = vec![None; duties.len()];
    let mut index = 0;
    while index < search.len() && !runs.iter().all(Option::is_some) {
        let state = search.state(index);
        for (duty, run) in duties.iter().zip(&mut runs).filter(|(_, run)| run.is_none()) {
            if starts_wrong(program, duty, &state) {
                *run = Some(Run { start: state.clone(), steps: Vec::new() });
            }
        }
        for (step, next) in steps_from(program, &state) {
            for (duty, run) in duties.iter().zip(&mut runs).filter(|(_, run)| run.is_none()) {
                if breaks(program, duty, &state, step, &next) {
                    let mut found = run_to(&search, index);
                    found.steps.push(step);
                    *run = Some(found);
                }
            }
            search.add_within(&next, index, step);
        }
        index += 1;
    }
    sought(&search, index, runs)
}

fn starts_wrong(program: &Program, duty: &Duty, state: &State) -> bool {
    let Duty::Start { thread } = *duty else { return false };
    state.is_start(&program.header)
        && !is_true(program.assertion(thread, 0), state, &program.header)
}

/// Is this a step of the obligation's instruction, with its left side true before and its claim false after?
fn breaks(program: &Program, duty: &Duty, before: &State, step: Step, after: &State) -> bool {
    let at = |thread: u8, state: &State| state.points[usize::from(thread) - 1];
    let (actor, action, asserting) = match *duty {
        Duty::Start { .. } => return false,
        Duty::Next { thread, point } | Duty::Taken { thread, point } => (thread, point, None),
        Duty::Kept { thread, point, actor, action } => (actor, action, Some((thread, point))),
    };
    let stands = asserting.is_none_or(|(thread, point)| at(thread, before) == point);
    if step.thread != actor || at(actor, before) != action || !stands {
        return false;
    }
    // A branch changes no register: its implication is about one state, and its test tells the two ways apart.
    let (left, right) = match duty.wanted(program) {
        Statement::Implication { left, right } | Statement::Triple { left, right, .. } => {
            (left, right)
        }
        Statement::Inclusion { .. } => return false,
    };
    is_true(&left, before, &program.header) && !is_true(&right, after, &program.header)
}
