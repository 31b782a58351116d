//! What an open obligation would need: the rules backwards, less what its case has, and only what the search certifies.

use crate::infer::clauses::{clauses, size};
use crate::infer::ground::Ground;
use crate::infer::sample::Place;
use crate::search::cases::Case;
use crate::search::prover::At;
use crate::terms::*;
use crate::text::counted;
use crate::text::print::Names;
use reference::formula::Assertion;
use reference::image::Program;

/// So many ways are handed to the search, and so many told.
const MOST_CERTIFIED: usize = 40;
const MOST_TOLD: usize = 4;

/// Clauses that are wanted together, each a list of literals.
type Way = Vec<Vec<A>>;

/// What would be needed for obligations of one program.
pub struct Wanting<'a> {
    ground: Ground<'a>,
}

/// An instruction, the points whose assertions are known before it, and a case of them.
#[derive(Clone, Copy)]
pub struct Before<'c> {
    pub at: At,
    pub places: &'c [Place],
    pub case: &'c Case,
}

impl<'a> Wanting<'a> {
    pub fn of(program: &'a Program, names: Names) -> Wanting<'a> {
        Wanting { ground: Ground::of(program, names) }
    }

    /// Each part of a goal that is not reached, with what would do, in words.
    pub fn told(&mut self, before: Before, parts: &[A]) -> Vec<String> {
        let states = self.states_of(before);
        let mut lines = Vec::new();
        for part in parts {
            for wanted in self.lacking(before, part) {
                lines.push(format!("not reached  {}", self.named(&wanted)));
                if !states.is_empty() {
                    lines.extend(self.ways_told(before, &states, &wanted));
                }
            }
        }
        if states.is_empty() {
            lines.push(format!("  would do   to exclude the case: {}", self.nowhere()));
        }
        lines
    }

    fn nowhere(&self) -> String {
        let count = counted(self.ground.sample.states.len(), "state");
        match self.ground.sample.all {
            true => format!("it is in none of all {count}"),
            false => format!("it is in none of {count} that were looked at"),
        }
    }

    fn named(&self, a: &A) -> String {
        self.ground.prover.names.assertion(a)
    }

    /// The clauses of a part that the case does not lead to; the part itself if it is one.
    fn lacking(&mut self, before: Before, part: &A) -> Vec<A> {
        let all = clauses(part);
        if all.len() == 1 {
            return vec![part.clone()];
        }
        let known = joined(before.case);
        let wanted = all.iter().filter_map(|clause| fold_right(clause, either));
        let open: Vec<A> = wanted.filter(|a| !self.leads(before.at, &known, a)).collect();
        if open.is_empty() {
            vec![part.clone()]
        } else {
            open
        }
    }

    fn leads(&mut self, at: At, p: &A, q: &A) -> bool {
        self.ground.prover.budget.renew();
        self.ground.prover.triple(at, p, q).is_some()
    }

    /// The states seen in which the threads are at these points and the case is so.
    fn states_of(&mut self, before: Before) -> Vec<usize> {
        let literals: Vec<usize> =
            leaves(before.case).iter().map(|a| self.ground.literal(a)).collect();
        let mut found: Vec<usize> = (0..self.ground.sample.states.len()).collect();
        for place in before.places {
            found.retain(|n| self.ground.sample.at(*place).has(*n));
        }
        for literal in literals {
            let truth = self.ground.states_of(literal).clone();
            found.retain(|n| truth.has(*n));
        }
        found
    }

    fn ways_told(&mut self, before: Before, states: &[usize], wanted: &A) -> Vec<String> {
        let ways = self.ways(before, states, wanted);
        if ways.is_empty() {
            return vec!["  nothing was found that would do and that no state seen breaks".into()];
        }
        let lead = |n: usize| if n == 0 { "would need" } else { "or" };
        let line = |(n, way): (usize, &A)| format!("  {:<10} {}", lead(n), self.named(way));
        ways.iter().enumerate().map(line).collect()
    }

    /// What would do beside the case, the shortest first: certified, true in the states seen, and not known already.
    fn ways(&mut self, before: Before, states: &[usize], wanted: &A) -> Vec<A> {
        let mut ways: Vec<(Way, Way)> = Vec::new();
        for clause in clauses(wanted) {
            let numbers = self.ground.numbered(std::slice::from_ref(&clause));
            for set in self.ground.needed(before.at, &numbers[0]) {
                let whole: Way = set.iter().map(|clause| self.ground.formulas(clause)).collect();
                if let Some(rest) = self.beyond(before.case, &whole) {
                    ways.push((rest, whole));
                }
            }
        }
        ways.retain(|(rest, _)| rest.iter().all(|clause| self.is_true(states, clause)));
        ways.sort_by_key(|(rest, _)| rest.iter().flatten().map(size).sum::<usize>());
        let mut found: Vec<Way> = Vec::new();
        for (rest, whole) in ways.into_iter().take(MOST_CERTIFIED) {
            let told = found.iter().any(|other| gives(&rest, other) || gives(other, &rest));
            if !told && self.leads(before.at, &conjunction(&whole), wanted) {
                found.push(rest);
            }
        }
        found.truncate(MOST_TOLD);
        found.iter().map(conjunction).collect()
    }

    /// What a way asks for beyond the case; none if that is nothing, or cannot be.
    fn beyond(&mut self, case: &Case, way: &Way) -> Option<Way> {
        let mut rest: Way = Vec::new();
        for clause in way {
            self.ground.prover.budget.renew();
            let whole = fold_right(clause, either)?;
            if self.ground.prover.serves(case, &whole) {
                continue;
            }
            let open: Vec<A> =
                clause.iter().filter(|a| !self.is_excluded(case, a)).cloned().collect();
            if open.is_empty() {
                return None;
            }
            rest.push(open);
        }
        (!rest.is_empty()).then_some(rest)
    }

    /// Can the literal not be so in this case?
    fn is_excluded(&mut self, case: &Case, literal: &A) -> bool {
        let mut with = case.clone();
        match &**literal {
            Assertion::Holds(e) => with.tests.push(e.clone()),
            _ => with.sees.push(literal.clone()),
        }
        self.ground.prover.impossible(&with)
    }

    /// Is the clause true in these states?
    fn is_true(&mut self, states: &[usize], clause: &[A]) -> bool {
        let literals: Vec<usize> = clause.iter().map(|a| self.ground.literal(a)).collect();
        let mut open = states.to_vec();
        for literal in literals {
            let truth = self.ground.states_of(literal);
            open.retain(|n| !truth.has(*n));
        }
        open.is_empty()
    }
}

/// The leaves that are true in a case.
fn leaves(case: &Case) -> Vec<A> {
    case.sees.iter().cloned().chain(case.tests.iter().map(holds)).collect()
}

fn joined(case: &Case) -> A {
    fold_right(&leaves(case), both).unwrap_or_else(|| holds(&truth()))
}

/// Does one way give the other, clause by clause?
fn gives(way: &Way, other: &Way) -> bool {
    let given = |wanted: &Vec<A>| way.iter().any(|own| own.iter().all(|a| wanted.contains(a)));
    other.iter().all(given)
}

fn conjunction(way: &Way) -> A {
    let parts: Vec<A> = way.iter().filter_map(|clause| fold_right(clause, either)).collect();
    fold_right(&parts, both).unwrap_or_else(|| holds(&truth()))
}
