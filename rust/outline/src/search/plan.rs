//! Plans: the ways in which an instruction may bring about a goal.
//!
//! A plan is a tree of triples. Its precondition is put together from the
//! alternatives that the cases at hand make use of; the others are left out.

use crate::search::cases::Case;
use crate::search::prover::{At, Line, Prover};
use crate::terms::*;
use std::rc::Rc;

/// A way to a goal, or several; parts are shared, since the cases copy them again and again.
#[derive(Debug, Clone)]
pub enum Plan {
    /// A triple at hand.
    Ready(Line),
    /// Rule 14.
    All(Rc<Plan>, Rc<Plan>),
    /// Rule 15: one side or the other.
    Side(Rc<Plan>, Rc<Plan>),
    /// Different ways to one goal, perhaps none.
    Any(A, Rc<Vec<Plan>>),
    /// A plan, then an implication.
    Then(Rc<Plan>, Line),
}

/// A plan with the alternatives that are in use.
#[derive(Debug, Clone)]
pub struct Choice {
    pub plan: Plan,
    pub used: bool,
    pub parts: Vec<Choice>,
}

impl Choice {
    pub fn new(plan: Plan) -> Choice {
        let parts = match &plan {
            Plan::Ready(_) => Vec::new(),
            Plan::All(a, b) | Plan::Side(a, b) => {
                vec![Choice::new((**a).clone()), Choice::new((**b).clone())]
            }
            Plan::Any(_, all) => all.iter().cloned().map(Choice::new).collect(),
            Plan::Then(a, _) => vec![Choice::new((**a).clone())],
        };
        Choice { plan, used: false, parts }
    }
}

/// A triple whose right side may still want one implication.
pub struct Done {
    pub line: Line,
    pub last: Option<Line>,
}

impl Prover<'_> {
    /// Marks what serves the case; false if nothing does.
    pub fn choose(&mut self, case: &Case, choice: &mut Choice) -> bool {
        let served = match choice.plan.clone() {
            Plan::Ready(line) => {
                let before = self.left(line);
                self.serves(case, &before)
            }
            Plan::All(..) | Plan::Then(..) => choice.parts.iter_mut().all(|p| self.choose(case, p)),
            Plan::Side(..) | Plan::Any(..) => self.choose_one(case, choice),
        };
        choice.used |= served;
        served
    }

    /// One alternative; one already in use is preferred. Marks of those that fail are taken back.
    fn choose_one(&mut self, case: &Case, choice: &mut Choice) -> bool {
        let mut order: Vec<usize> = (0..choice.parts.len()).collect();
        order.sort_by_key(|i| !choice.parts[*i].used);
        for i in order {
            let saved = choice.parts[i].clone();
            if self.choose(case, &mut choice.parts[i]) {
                return true;
            }
            choice.parts[i] = saved;
        }
        false
    }

    /// The triple that the marked alternatives make.
    pub fn resolve(&mut self, at: At, choice: &Choice) -> Option<Done> {
        match &choice.plan {
            Plan::Ready(line) => Some(Done { line: *line, last: None }),
            Plan::Then(_, last) => {
                let inner = self.resolve(at, &choice.parts[0])?;
                if inner.last.is_none() {
                    return Some(Done { line: inner.line, last: Some(*last) });
                }
                let line = self.close(at, inner)?;
                Some(Done { line, last: Some(*last) })
            }
            Plan::All(..) => self.join(at, 14, &choice.parts[0], &choice.parts[1]),
            Plan::Side(..) => self.resolve_side(at, choice),
            Plan::Any(..) => self.resolve_any(at, choice),
        }
    }

    /// The triple with its last implication worked in.
    pub fn close(&mut self, at: At, done: Done) -> Option<Line> {
        self.consequence(at, None, done.line, done.last)
    }

    fn join(&mut self, at: At, rule: u8, a: &Choice, b: &Choice) -> Option<Done> {
        let (a, b) = (self.resolve(at, a)?, self.resolve(at, b)?);
        let (a, b) = (self.close(at, a)?, self.close(at, b)?);
        let op = if rule == 14 { both } else { either };
        let (left, right) = (op(&self.left(a), &self.left(b)), op(&self.right(a), &self.right(b)));
        Some(Done { line: self.step(at, rule, &left, &right, &[a, b])?, last: None })
    }

    fn resolve_side(&mut self, at: At, choice: &Choice) -> Option<Done> {
        let [a, b] = &choice.parts[..] else { return None };
        if a.used && b.used {
            return self.join(at, 15, a, b);
        }
        let goal = either(&self.goal(&a.plan), &self.goal(&b.plan));
        let done = self.resolve(at, if a.used { a } else { b })?;
        let line = self.close(at, done)?;
        let side = self.right(line);
        Some(Done { line, last: Some(self.fact(20, &side, &goal, &[])?) })
    }

    fn resolve_any(&mut self, at: At, choice: &Choice) -> Option<Done> {
        let goal = self.goal(&choice.plan);
        let mut used = choice.parts.iter().filter(|p| p.used);
        let mut all = self.resolve(at, used.next()?)?;
        for next in used {
            let (a, b) = (self.close(at, all)?, self.resolve(at, next)?);
            let b = self.close(at, b)?;
            let left = either(&self.left(a), &self.left(b));
            let twice = either(&goal, &goal);
            let line = self.step(at, 15, &left, &twice, &[a, b])?;
            all = Done { line, last: Some(self.fact(20, &twice, &goal, &[])?) };
        }
        Some(all)
    }

    /// What a plan brings about.
    pub fn goal(&self, plan: &Plan) -> A {
        match plan {
            Plan::Ready(line) | Plan::Then(_, line) => self.right(*line),
            Plan::All(a, b) => both(&self.goal(a), &self.goal(b)),
            Plan::Side(a, b) => either(&self.goal(a), &self.goal(b)),
            Plan::Any(goal, _) => goal.clone(),
        }
    }
}
