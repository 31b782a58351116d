//! What was tried for an obligation that stays open.

use crate::search::cases::{cases, Case};
use crate::search::implication::conjuncts;
use crate::search::plan::{Choice, Plan};
use crate::search::prover::{Line, Prover};
use crate::terms::*;

/// A case of the left side that nothing served, and the ways to the goal that were known.
#[derive(Debug, Clone)]
pub struct Lacking {
    pub case: Case,
    pub plan: Plan,
}

impl Prover<'_> {
    /// What is known in a case, in words.
    pub fn known_words(&self, case: &Case) -> String {
        let tests = case.tests.iter().map(holds);
        let leaves: Vec<String> =
            case.sees.iter().cloned().chain(tests).map(|a| self.names.assertion(&a)).collect();
        let start = case.start.then(|| "start".to_string());
        let known: Vec<String> = start.into_iter().chain(leaves).collect();
        if known.is_empty() {
            "nothing is known".into()
        } else {
            known.join(", ")
        }
    }

    /// The parts of a goal that its case does not lead to.
    pub fn not_reached(&mut self, lacking: &Lacking) -> Vec<A> {
        let parts = self.missing(&lacking.case, &lacking.plan);
        unique(parts.iter().map(|part| self.goal(part)))
    }

    /// The parts of a plan's conjunctions that the case does not serve.
    fn missing(&mut self, case: &Case, plan: &Plan) -> Vec<Plan> {
        if self.choose(case, &mut Choice::new(plan.clone())) {
            return Vec::new();
        }
        let parts = match plan {
            Plan::Any(_, ways) => ways.iter().find(|w| matches!(w, Plan::All(..))),
            _ => Some(plan),
        };
        match parts {
            Some(Plan::All(a, b)) => [self.missing(case, a), self.missing(case, b)].concat(),
            _ => vec![plan.clone()],
        }
    }

    /// What the start does not say of the registers that a part names.
    fn tell_open_registers(&mut self, part: &A) {
        for r in registers_of(part.as_ref()) {
            if !self.program.header.is_cleared(r) {
                let name = &self.names.registers[usize::from(r) - 1];
                self.tried.push(format!("  `{name}` is open: it may start at any value"));
            }
        }
    }

    /// The first case of p that does not give q, and the parts of q that are missing there.
    pub fn tell_implication(&mut self, p: &A, q: &A) -> Option<Line> {
        let Some(all) = cases(p) else {
            self.tell_leaves(p);
            return None;
        };
        for case in all {
            if self.support(&case, q).is_some() {
                continue;
            }
            if self.budget.is_spent() {
                return None;
            }
            self.tried.push(format!("open case    {}", self.known_words(&case)));
            for part in conjuncts(q) {
                if !self.serves(&case, &part) {
                    let text = format!("missing      {}", self.names.assertion(&part));
                    self.tried.push(text);
                    if case.start {
                        self.tell_open_registers(&part);
                    }
                }
            }
            return None;
        }
        self.tried.push("tried        each case has its reasons, but together".into());
        self.tried.push("             they pass 10 leaves or 4 premises of rule 20".into());
        None
    }
}
