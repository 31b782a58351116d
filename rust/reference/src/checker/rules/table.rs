//! Rule 20: a truth table over the leaves of a line and its premises.

use super::triples::Sides;
use super::Fit;
use crate::formula::{Assertion, Formula, Test};
use std::rc::Rc;

/// More distinct leaves than this make a line unjustified.
pub const MOST_LEAVES: usize = 10;

/// Whether the line is true in every row in which all premises are.
pub fn implies_by_table(line: Sides, premises: &[Sides]) -> Fit {
    let mut leaves = Leaves::default();
    let line = leaves.implication(line);
    let premises: Vec<Implication> =
        premises.iter().map(|&sides| leaves.implication(sides)).collect();
    if leaves.0.len() > MOST_LEAVES {
        return None;
    }
    let mut rows = 0..1_u32 << leaves.0.len();
    Some(rows.all(|row| line.is_true(row) || premises.iter().any(|premise| !premise.is_true(row))))
}

/// A formula of which only the truth of its leaves matters.
pub enum Proposition {
    False,
    Leaf(usize),
    Not(Box<Proposition>),
    And(Box<Proposition>, Box<Proposition>),
    Or(Box<Proposition>, Box<Proposition>),
}

impl Proposition {
    /// The truth in a row, in which leaf number i has the truth of bit i.
    pub fn is_true(&self, row: u32) -> bool {
        match self {
            Proposition::False => false,
            Proposition::Leaf(number) => row >> number & 1 == 1,
            Proposition::Not(a) => !a.is_true(row),
            Proposition::And(a, b) => a.is_true(row) && b.is_true(row),
            Proposition::Or(a, b) => a.is_true(row) || b.is_true(row),
        }
    }
}

struct Implication {
    left: Proposition,
    right: Proposition,
}

impl Implication {
    fn is_true(&self, row: u32) -> bool {
        !self.left.is_true(row) || self.right.is_true(row)
    }
}

/// The distinct leaves met so far: formulas 24 and 27, and tests 9 and 10 under 28.
#[derive(Default)]
pub struct Leaves(pub Vec<Formula>);

impl Leaves {
    /// The leaves of an assertion, in the order in which they occur.
    pub fn of(tree: &Rc<Assertion>) -> Leaves {
        let mut leaves = Leaves::default();
        leaves.assertion(tree);
        leaves
    }

    fn leaf(&mut self, formula: Formula) -> Proposition {
        let known = self.0.iter().position(|leaf| *leaf == formula);
        Proposition::Leaf(known.unwrap_or_else(|| {
            self.0.push(formula);
            self.0.len() - 1
        }))
    }

    fn implication(&mut self, (left, right): Sides) -> Implication {
        Implication { left: self.assertion(left), right: self.assertion(right) }
    }

    /// The assertion as a proposition; leaves that are new are added.
    pub fn assertion(&mut self, tree: &Rc<Assertion>) -> Proposition {
        match tree.as_ref() {
            Assertion::Sees(..) | Assertion::Start => self.leaf(Formula::Assertion(tree.clone())),
            Assertion::Both(a, b) => and(self.assertion(a), self.assertion(b)),
            Assertion::Either(a, b) => or(self.assertion(a), self.assertion(b)),
            Assertion::Holds(test) => self.test(test),
        }
    }

    fn test(&mut self, tree: &Rc<Test>) -> Proposition {
        match tree.as_ref() {
            Test::False => Proposition::False,
            Test::Equal(..) | Test::Less(..) => self.leaf(Formula::Test(tree.clone())),
            Test::Not(a) => Proposition::Not(Box::new(self.test(a))),
            Test::And(a, b) => and(self.test(a), self.test(b)),
            Test::Or(a, b) => or(self.test(a), self.test(b)),
            Test::Unsync(_) | Test::Covered(_) => unreachable!("not under holds"),
        }
    }
}

fn and(a: Proposition, b: Proposition) -> Proposition {
    Proposition::And(Box::new(a), Box::new(b))
}

fn or(a: Proposition, b: Proposition) -> Proposition {
    Proposition::Or(Box::new(a), Box::new(b))
}
