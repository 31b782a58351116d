//! The plain meaning of values and tests, given what the names stand for.

use super::{Test, Value};

/// What a value or a test can ask of a state at one view.
pub trait Environment {
    /// Values are below it, and sums modulo it.
    fn range(&self) -> u8;
    fn register(&self, register: u8) -> u8;
    fn word(&self, word: u8) -> u8;
    fn unsync(&self, word: u8) -> bool;
    fn covered(&self, word: u8) -> bool;
}

impl Value {
    pub fn evaluate(&self, names: &dyn Environment) -> u8 {
        match self {
            Value::Constant(number) => *number,
            Value::Register(number) => names.register(*number),
            Value::Word(number) => names.word(*number),
            Value::Sum(a, b) => sum(a.evaluate(names), b.evaluate(names), names.range()),
        }
    }
}

/// The sum of two values modulo the range, which both are below.
pub fn sum(a: u8, b: u8, range: u8) -> u8 {
    let whole = a + b;
    if whole < range {
        whole
    } else {
        whole - range
    }
}

impl Test {
    pub fn evaluate(&self, names: &dyn Environment) -> bool {
        match self {
            Test::False => false,
            Test::Equal(a, b) => a.evaluate(names) == b.evaluate(names),
            Test::Less(a, b) => a.evaluate(names) < b.evaluate(names),
            Test::Not(a) => !a.evaluate(names),
            Test::And(a, b) => a.evaluate(names) && b.evaluate(names),
            Test::Or(a, b) => a.evaluate(names) || b.evaluate(names),
            Test::Unsync(word) => names.unsync(*word),
            Test::Covered(word) => names.covered(*word),
        }
    }
}
