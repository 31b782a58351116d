//! A triple case by case, where one table for all cases would have too many leaves.
//!
//! Each case of the left side, cut down to what it needs, gets a triple of its
//! own; rule 15 joins them.

use crate::search::cases::{cases, Case};
use crate::search::prover::{At, Line, Prover};
use crate::search::triple::Context;
use crate::terms::*;

impl Prover<'_> {
    pub fn case_by_case(&mut self, context: &Context, p: &A, q: &A) -> Option<Line> {
        let mut lines: Vec<Line> = Vec::new();
        for case in cases(p)? {
            if self.impossible(&case) {
                continue;
            }
            // A case that an earlier triple serves needs none of its own.
            if lines.iter().any(|l| case.satisfies(&self.left(*l))) {
                continue;
            }
            lines.push(self.case_alone(context, &case, q)?);
        }
        let (first, rest) = lines.split_first()?;
        let mut all = *first;
        for next in rest {
            all = self.either_way(context.at, all, *next, q)?;
        }
        let before = self.left(all);
        let line = self.implied(p, &before)?;
        self.consequence(context.at, Some(line), all, None)
    }

    /// {the leaves of the case that are needed} c {q}
    fn case_alone(&mut self, context: &Context, case: &Case, q: &A) -> Option<Line> {
        let tests = case.tests.iter().map(holds);
        let leaves: Vec<A> = case.sees.iter().cloned().chain(tests).collect();
        let whole = fold_right(&leaves, both)?;
        let done = self.serve(context, vec![case.clone()], q)?;
        let before = self.left(done.line);
        let small = self.least_part(&whole, &before)?;
        let firsts = self.reach(&small, &before)?;
        self.finish(context.at, firsts, done.line, done.last)
    }

    /// Two triples to one goal, joined.
    fn either_way(&mut self, at: At, a: Line, b: Line, q: &A) -> Option<Line> {
        let left = either(&self.left(a), &self.left(b));
        let twice = either(q, q);
        let line = self.step(at, 15, &left, &twice, &[a, b])?;
        let last = self.fact(20, &twice, q, &[])?;
        self.consequence(at, None, line, Some(last))
    }
}
