//! Runs across a handover: under the old code from every start state, then on under the new code.

use super::search::{false_at, Bounds, Fault, Search};
use crate::handover::Handover;
use crate::machine::{State, Step};

/// What a search for runs across a handover has found.
#[derive(Clone, Debug, PartialEq, Eq)]
pub struct FoundAcross {
    /// How many states were looked at under the old code, and under the new one behind these.
    pub states: (usize, usize),
    /// Whether these were all runs.
    pub all: bool,
    /// A run that ends where a new assertion is false, with the fewest steps under the new code.
    pub broken: Option<BreakAcross>,
}

/// A run that ends under the new code, where a thread's new assertion is false.
#[derive(Clone, Debug, PartialEq, Eq)]
pub struct BreakAcross {
    pub start: State,
    pub first: Vec<Step>,
    pub second: Vec<Step>,
    pub thread: u8,
}

/// Hands over in every state that the old code reaches, and evaluates the new assertions from there on. The bounds go
/// for each code by itself; under the new code that of states counts those behind the ones handed over.
pub fn across(handover: &Handover, bounds: Bounds) -> FoundAcross {
    let mut old = Search::new(&handover.old, bounds);
    old.exhaust();
    let mapped: Vec<State> = (0..old.len()).map(|at| handover.mapped(&old.state(at))).collect();
    let behind = Bounds { states: bounds.states.saturating_add(mapped.len()), ..bounds };
    let mut new = Search::from(&handover.new, behind, mapped.iter().cloned(), old.cut);
    let found = new.first(&|state| false_at(&handover.new, &[], state));
    let broken = found.and_then(|(index, fault)| {
        let Fault::Assertion { thread } = fault else { return None };
        let (start, second) = new.run_to(index);
        let origin = mapped.iter().position(|state| *state == start).expect("handed over");
        let (start, first) = old.run_to(origin);
        Some(BreakAcross { start, first, second, thread })
    });
    FoundAcross { states: (old.len(), new.len()), all: !new.cut.any(), broken }
}
