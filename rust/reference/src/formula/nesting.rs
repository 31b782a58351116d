//! How deep a formula is nested; one without a sub-formula has 1.

use super::encode::Encode;
use super::{Assertion, Formula, Interval, Test, Value};

/// The deepest nesting of a formula.
pub const NESTING: usize = 16;
/// The most bytes of a formula.
pub const BYTES: usize = 255;

/// A tree whose nesting can be told.
pub trait Nesting: Encode {
    fn nesting(&self) -> usize;

    /// Whether the formula fits in a record.
    fn fits_record(&self) -> bool {
        self.nesting() <= NESTING && self.encode().len() <= BYTES
    }
}

impl<T: Nesting> Nesting for std::rc::Rc<T> {
    fn nesting(&self) -> usize {
        self.as_ref().nesting()
    }
}

/// The nesting of a formula with these parts.
fn above(parts: &[&dyn Nesting]) -> usize {
    1 + parts.iter().map(|part| part.nesting()).max().unwrap_or(0)
}

impl Nesting for Value {
    fn nesting(&self) -> usize {
        match self {
            Value::Constant(_) | Value::Register(_) | Value::Word(_) => above(&[]),
            Value::Sum(a, b) => above(&[a, b]),
        }
    }
}

impl Nesting for Test {
    fn nesting(&self) -> usize {
        match self {
            Test::False | Test::Unsync(_) | Test::Covered(_) => above(&[]),
            Test::Equal(a, b) | Test::Less(a, b) => above(&[a, b]),
            Test::Not(a) => above(&[a]),
            Test::And(a, b) | Test::Or(a, b) => above(&[a, b]),
        }
    }
}

impl Nesting for Interval {
    fn nesting(&self) -> usize {
        match self {
            Interval::All(test) => above(&[test]),
            Interval::One(_) => above(&[]),
            Interval::Chop(a, b) | Interval::Both(a, b) | Interval::Either(a, b) => above(&[a, b]),
        }
    }
}

impl Nesting for Assertion {
    fn nesting(&self) -> usize {
        match self {
            Assertion::Sees(_, interval) => above(&[interval]),
            Assertion::Both(a, b) | Assertion::Either(a, b) => above(&[a, b]),
            Assertion::Start => above(&[]),
            Assertion::Holds(test) => above(&[test]),
        }
    }
}

impl Nesting for Formula {
    fn nesting(&self) -> usize {
        match self {
            Formula::Value(tree) => tree.nesting(),
            Formula::Test(tree) => tree.nesting(),
            Formula::Interval(tree) => tree.nesting(),
            Formula::Assertion(tree) => tree.nesting(),
        }
    }
}
