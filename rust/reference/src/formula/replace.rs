//! Replacement of registers, or of words read as values, by values, all at once: what takes a leaf's place is not
//! replaced again.
//!
//! Only value leaves are replaced: `unsync`, `cov` and `one` keep their word.

use super::{Assertion, Interval, Test, Value};
use std::rc::Rc;

/// The leaf that is replaced and what takes its place.
pub struct Replacement {
    pub leaf: Value,
    pub by: Rc<Value>,
}

/// A tree in which leaves can be replaced.
pub trait Replace: Sized {
    fn replace(&self, with: &[Replacement]) -> Rc<Self>;
}

impl Replace for Value {
    fn replace(&self, with: &[Replacement]) -> Rc<Value> {
        if let Some(replacement) = with.iter().find(|replacement| replacement.leaf == *self) {
            return replacement.by.clone();
        }
        Rc::new(match self {
            Value::Sum(a, b) => Value::Sum(a.replace(with), b.replace(with)),
            leaf => leaf.clone(),
        })
    }
}

impl Replace for Test {
    fn replace(&self, with: &[Replacement]) -> Rc<Test> {
        Rc::new(match self {
            Test::Equal(a, b) => Test::Equal(a.replace(with), b.replace(with)),
            Test::Less(a, b) => Test::Less(a.replace(with), b.replace(with)),
            Test::Not(a) => Test::Not(a.replace(with)),
            Test::And(a, b) => Test::And(a.replace(with), b.replace(with)),
            Test::Or(a, b) => Test::Or(a.replace(with), b.replace(with)),
            Test::False | Test::Unsync(_) | Test::Covered(_) => self.clone(),
        })
    }
}

impl Replace for Interval {
    fn replace(&self, with: &[Replacement]) -> Rc<Interval> {
        Rc::new(match self {
            Interval::All(test) => Interval::All(test.replace(with)),
            Interval::One(word) => Interval::One(*word),
            Interval::Chop(a, b) => Interval::Chop(a.replace(with), b.replace(with)),
            Interval::Both(a, b) => Interval::Both(a.replace(with), b.replace(with)),
            Interval::Either(a, b) => Interval::Either(a.replace(with), b.replace(with)),
        })
    }
}

impl Replace for Assertion {
    fn replace(&self, with: &[Replacement]) -> Rc<Assertion> {
        Rc::new(match self {
            Assertion::Sees(thread, interval) => Assertion::Sees(*thread, interval.replace(with)),
            Assertion::Both(a, b) => Assertion::Both(a.replace(with), b.replace(with)),
            Assertion::Either(a, b) => Assertion::Either(a.replace(with), b.replace(with)),
            Assertion::Start => Assertion::Start,
            Assertion::Holds(test) => Assertion::Holds(test.replace(with)),
        })
    }
}
