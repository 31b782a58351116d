//! Goals of a load taken apart into clauses.
//!
//! Rule 4 brings about `either(holds e, Q)`. A goal like "read 0 and may still
//! see all, or read 1 and may see the rest" is a disjunction of conjunctions;
//! as a conjunction of disjunctions each part is one that rule 4 can reach.

use crate::search::plan::Plan;
use crate::search::prover::Prover;
use crate::search::triple::Context;
use crate::terms::*;
use reference::formula::Assertion;

/// More clauses than this are not worth the lines.
const MOST_CLAUSES: usize = 16;

/// The clauses of an assertion, each a list of disjuncts.
fn clauses(a: &A) -> Vec<Vec<A>> {
    match &**a {
        Assertion::Both(p, q) => [clauses(p), clauses(q)].concat(),
        Assertion::Either(p, q) => {
            let mut all = Vec::new();
            for left in clauses(p) {
                for right in clauses(q) {
                    all.push(merged(&left, &right));
                }
            }
            all
        }
        _ => vec![vec![a.clone()]],
    }
}

fn merged(left: &[A], right: &[A]) -> Vec<A> {
    let new: Vec<A> = right.iter().filter(|d| !left.contains(d)).cloned().collect();
    [left.to_vec(), new].concat()
}

/// Without clauses that contain another one.
fn least(all: Vec<Vec<A>>) -> Vec<Vec<A>> {
    let mut kept: Vec<Vec<A>> = Vec::new();
    let mut sorted = all;
    sorted.sort_by_key(|c| c.len());
    for clause in sorted {
        if !kept.iter().any(|k| k.iter().all(|d| clause.contains(d))) {
            kept.push(clause);
        }
    }
    kept
}

fn has_both(a: &A) -> bool {
    match &**a {
        Assertion::Both(..) => true,
        Assertion::Either(p, q) => has_both(p) || has_both(q),
        _ => false,
    }
}

impl Prover<'_> {
    /// The goal by its clauses, for a load and a disjunction that has a `both` inside.
    pub fn by_clauses(&mut self, context: &Context, goal: &A) -> Option<Plan> {
        let inner = goal.as_either().is_some() && has_both(goal);
        if !inner || self.instruction(context.at).load().is_none() {
            return None;
        }
        let all = least(clauses(goal));
        if all.len() > MOST_CLAUSES {
            return None;
        }
        let joined: Option<Vec<A>> = all.iter().map(|c| fold_right(c, either)).collect();
        let apart = fold_right(&joined?, both)?;
        let last = self.fact(20, &apart, goal, &[])?;
        Some(Plan::Then(self.plan(context, &apart).into(), last))
    }
}

#[cfg(test)]
mod tests {
    use super::*;

    #[test]
    fn clauses_multiply_out() {
        let leaf = |n: u8| holds(&equal(&register(1), &constant(n)));
        let goal = either(&both(&leaf(0), &leaf(1)), &both(&leaf(0), &leaf(2)));
        let all = least(clauses(&goal));
        assert_eq!(all, vec![vec![leaf(0)], vec![leaf(1), leaf(2)]]);
    }
}
