//! What a litmus test comes to, in herd7's words.

use super::{Litmus, Shown};
use crate::text::condition::Quantifier;
use crate::text::print::Names;
use crate::text::reach::{all, not_all};
use crate::text::run;
use reference::explore::{outcomes, Bounds, Cut, Run};
use reference::image::Program;
use std::collections::BTreeMap;

/// A final state by what is shown of it.
#[derive(Debug, Clone)]
pub struct End {
    pub values: Vec<u8>,
    /// Is the condition's test true in it?
    pub is_met: bool,
    pub run: Run,
}

/// All final states of a test.
pub struct Answer {
    pub ends: Vec<End>,
    pub states: usize,
    pub bounds: Bounds,
    pub cut: Cut,
}

/// In how many of the final states the test is true, if all were seen.
#[derive(Debug, Clone, Copy, PartialEq, Eq)]
pub enum Observation {
    Always,
    Sometimes,
    Never,
}

impl Observation {
    pub fn word(self) -> &'static str {
        match self {
            Observation::Always => "Always",
            Observation::Sometimes => "Sometimes",
            Observation::Never => "Never",
        }
    }
}

/// Looks at every run within the bounds.
pub fn answer(litmus: &Litmus, program: &Program, bounds: Bounds) -> Answer {
    let found = outcomes(program, bounds);
    let mut ends: BTreeMap<Vec<u8>, End> = BTreeMap::new();
    for end in &found.finals {
        let value = |shown: &Shown| match shown {
            Shown::Register { number, .. } => end.registers[usize::from(*number) - 1],
            Shown::Word { number, .. } => end.words[usize::from(*number) - 1],
        };
        let values: Vec<u8> = litmus.shown.iter().map(value).collect();
        let last = end.run.steps.iter().fold(end.run.start.clone(), |state, step| {
            reference::machine::take(&program.threads, &state, *step).expect("a step of the run")
        });
        let is_met = litmus.condition.is_met(&last);
        ends.entry(values.clone()).or_insert(End { values, is_met, run: end.run.clone() });
    }
    let (states, cut) = (found.states, found.cut);
    Answer { ends: ends.into_values().collect(), states, bounds, cut }
}

impl Answer {
    /// How many final states meet the test, and how many do not.
    pub fn counts(&self) -> (usize, usize) {
        let met = self.ends.iter().filter(|end| end.is_met).count();
        (met, self.ends.len() - met)
    }

    /// What is seen, if what was not looked at cannot change it.
    pub fn observation(&self) -> Option<Observation> {
        match self.counts() {
            (0, _) if self.cut.any() => None,
            (_, 0) if self.cut.any() => None,
            (0, _) => Some(Observation::Never),
            (_, 0) => Some(Observation::Always),
            _ => Some(Observation::Sometimes),
        }
    }

    /// A run that decides the condition: to a state that is sought, or to one against `forall`.
    pub fn deciding(&self, litmus: &Litmus) -> Option<&End> {
        let sought = litmus.condition.quantifier != Quantifier::Forall;
        self.ends.iter().find(|end| end.is_met == sought)
    }

    /// Whether the condition is so, where that is known.
    pub fn is_so(&self, litmus: &Litmus) -> Option<bool> {
        let decided = self.deciding(litmus).is_some();
        match litmus.condition.quantifier {
            _ if !decided && self.cut.any() => None,
            Quantifier::Exists => Some(decided),
            Quantifier::NotExists | Quantifier::Forall => Some(!decided),
        }
    }

    /// In herd7's form, and a line about how much was seen. Runs are told where they are asked for.
    pub fn told(
        &self,
        litmus: &Litmus,
        program: &Program,
        names: &Names,
        runs: bool,
    ) -> Vec<String> {
        let kind = match litmus.condition.quantifier {
            Quantifier::Exists => "Allowed",
            Quantifier::NotExists => "Forbidden",
            Quantifier::Forall => "Required",
        };
        let mut lines = vec![format!("Test {} {kind}", litmus.name)];
        lines.push(format!("States {}", self.ends.len()));
        for end in &self.ends {
            lines.push(litmus.state(&end.values));
            if runs {
                lines.extend(run::lines(program, names, &end.run));
            }
        }
        lines.push(match self.is_so(litmus) {
            Some(true) => "Ok".into(),
            Some(false) => "No".into(),
            None => "Undecided".into(),
        });
        let (positive, negative) = self.counts();
        lines.push("Witnesses".into());
        lines.push(format!("Positive: {positive} Negative: {negative}"));
        lines.push(format!("Condition {}", litmus.told));
        let seen = self.observation().map_or("Undecided", Observation::word);
        lines.push(format!("Observation {} {seen} {positive} {negative}", litmus.name));
        lines.push(self.seen());
        lines
    }

    /// How much was looked at.
    fn seen(&self) -> String {
        match self.cut.any() {
            true => format!("Seen {}", not_all(self.states, &self.cut, &self.bounds)),
            false => format!("Seen {}", all(self.states)),
        }
    }
}

impl Litmus {
    /// A state as herd7 writes it: `0:r0=1; [x]=2;`.
    pub fn state(&self, values: &[u8]) -> String {
        let parts = self.shown.iter().zip(values);
        let parts: Vec<String> =
            parts.map(|(shown, value)| format!("{}={value};", shown.name())).collect();
        parts.join(" ")
    }
}
