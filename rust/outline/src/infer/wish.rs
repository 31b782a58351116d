//! What is asked of a program: claims, and assertions at points.

use crate::infer::assemble::Given;
use crate::infer::sample::Place;
use crate::terms::*;
use crate::text::source::Source;
use reference::explore::truth::is_true;
use reference::explore::{find, Bounds, Run};
use reference::image::{Meeting, Program};
use reference::machine::State;

/// How far runs are looked at for one that breaks the wish.
const BOUNDS: Bounds = Bounds { steps: 60, writes: 8, starts: 4096, states: 20_000 };

/// What the outline is to say.
#[derive(Debug, Clone)]
pub struct Wish {
    /// Assertions that are given, but for `true`, which says nothing.
    pub given: Given,
    pub claims: Vec<Meeting>,
    /// Do the given points say what they say and no more, so that only holes are filled?
    pub as_they_are: bool,
}

/// A part of the wish that a run breaks.
#[derive(Debug, Clone, PartialEq, Eq)]
pub enum Breach {
    Assertion(Place),
    Claim(Meeting),
}

impl Wish {
    pub fn of(source: &Source, as_they_are: bool) -> Wish {
        let nothing = holds(&truth());
        let mut given = Given::new();
        for (t, points) in (1..).zip(&source.points) {
            for (p, point) in (0..).zip(points) {
                if !point.hole && (as_they_are || point.assertion != nothing) {
                    given.insert((t, p), point.assertion.clone());
                }
            }
        }
        Wish { given, claims: source.meetings(), as_they_are }
    }

    pub fn is_empty(&self) -> bool {
        self.given.is_empty() && self.claims.is_empty()
    }

    /// What is not so in a state.
    fn breach(&self, program: &Program, state: &State) -> Option<Breach> {
        let at = |(t, p): &Place| state.points[usize::from(*t) - 1] == *p;
        let mut wrong = self.given.iter().filter(|(place, _)| at(place));
        let assertion = wrong.find(|(_, a)| !is_true(a, state, &program.header));
        let claim = || self.claims.iter().find(|meeting| state.has_meeting(meeting));
        let assertion = assertion.map(|(place, _)| Breach::Assertion(*place));
        assertion.or_else(|| claim().copied().map(Breach::Claim))
    }

    /// A shortest run that breaks the wish, as far as is looked.
    pub fn broken(&self, program: &Program) -> Option<(Run, Breach)> {
        let wrong = |state: &State| self.breach(program, state).is_some();
        let run = find(program, BOUNDS, &wrong).runs[0].take()?;
        let end = run.steps.iter().fold(run.start.clone(), |state, step| {
            reference::machine::take(&program.threads, &state, *step).expect("a step of the run")
        });
        let breach = self.breach(program, &end)?;
        Some((run, breach))
    }
}
