//! Proofs as trees of lines, and the steps that proofs by hand use most.

use crate::formula::{Assertion, Interval};
use crate::image::Statement;
use std::rc::Rc;

/// A line of a certificate with the lines that it rests on.
#[derive(Clone, Debug, PartialEq, Eq)]
pub struct Proof {
    pub rule: u8,
    pub statement: Statement,
    pub premises: Vec<Rc<Proof>>,
}

/// A shared proof: one that several lines rest on is written once.
pub type Lemma = Rc<Proof>;
type A = Rc<Assertion>;
type I = Rc<Interval>;

/// A triple by a rule, for the instruction at a thread's point.
pub fn triple(
    rule: u8,
    (thread, point): (u8, u8),
    left: impl Into<A>,
    right: impl Into<A>,
    premises: &[&Lemma],
) -> Lemma {
    let (left, right) = (left.into(), right.into());
    line(rule, Statement::Triple { thread, point, left, right }, premises)
}

/// An implication by a rule.
pub fn implies(rule: u8, left: impl Into<A>, right: impl Into<A>, premises: &[&Lemma]) -> Lemma {
    let (left, right) = (left.into(), right.into());
    line(rule, Statement::Implication { left, right }, premises)
}

/// An inclusion by a rule.
pub fn included(rule: u8, left: impl Into<I>, right: impl Into<I>, premises: &[&Lemma]) -> Lemma {
    let (left, right) = (left.into(), right.into());
    line(rule, Statement::Inclusion { left, right }, premises)
}

/// A line with any statement.
pub fn line(rule: u8, statement: Statement, premises: &[&Lemma]) -> Lemma {
    let premises = premises.iter().map(|&premise| premise.clone()).collect();
    Rc::new(Proof { rule, statement, premises })
}

impl Proof {
    /// Left and right of a triple or an implication.
    pub fn assertions(&self) -> (&A, &A) {
        self.statement.assertions()
    }

    /// Left and right of an inclusion.
    pub fn intervals(&self) -> (&I, &I) {
        self.statement.intervals()
    }
}

/// Rule 22: the thread sees the left interval, so it sees the right one.
pub fn seen(thread: u8, inclusion: &Lemma) -> Lemma {
    let (left, right) = inclusion.intervals();
    let left = Assertion::sees(thread, left.clone());
    implies(22, left, Assertion::sees(thread, right.clone()), &[inclusion])
}

/// Rule 16: a triple with a weaker right side and a stronger left side.
pub fn consequence(left: impl Into<A>, middle: &Lemma, right: impl Into<A>) -> Lemma {
    let (p, q) = middle.assertions();
    let before = implies(20, left, p.clone(), &[]);
    let after = implies(20, q.clone(), right, &[]);
    around(&before, middle, &after)
}

/// Rule 16 with its three premises given.
pub fn around(before: &Lemma, middle: &Lemma, after: &Lemma) -> Lemma {
    let (left, right) = (before.assertions().0.clone(), after.assertions().1.clone());
    same_place(16, middle, left, right, &[before, middle, after])
}

/// Rule 14: two triples for the same instruction, joined by both.
pub fn pair(p: &Lemma, q: &Lemma) -> Lemma {
    let ((a, b), (c, d)) = (p.assertions(), q.assertions());
    let left = Assertion::both(a.clone(), c.clone());
    same_place(14, p, left, Assertion::both(b.clone(), d.clone()), &[p, q])
}

/// Rule 15: two triples for the same instruction, joined by either.
pub fn choice(p: &Lemma, q: &Lemma) -> Lemma {
    let ((a, b), (c, d)) = (p.assertions(), q.assertions());
    let left = Assertion::either(a.clone(), c.clone());
    same_place(15, p, left, Assertion::either(b.clone(), d.clone()), &[p, q])
}

/// A triple for the instruction of another one.
fn same_place(
    rule: u8,
    other: &Lemma,
    left: impl Into<A>,
    right: impl Into<A>,
    premises: &[&Lemma],
) -> Lemma {
    match other.statement {
        Statement::Triple { thread, point, .. } => {
            triple(rule, (thread, point), left, right, premises)
        }
        _ => panic!("only a triple has a place"),
    }
}
