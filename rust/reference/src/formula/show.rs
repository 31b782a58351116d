//! Formulas as text for people: `thread 2 sees ([unsync w2] ; one w1)`.

use super::{Assertion, Interval, Test, Value};
use std::fmt::{Display, Formatter, Result};

impl Display for Value {
    fn fmt(&self, out: &mut Formatter<'_>) -> Result {
        match self {
            Value::Constant(number) => write!(out, "{number}"),
            Value::Register(number) => write!(out, "r{number}"),
            Value::Word(number) => write!(out, "w{number}"),
            Value::Sum(a, b) => write!(out, "({a} + {b})"),
        }
    }
}

impl Display for Test {
    fn fmt(&self, out: &mut Formatter<'_>) -> Result {
        match self {
            Test::False => write!(out, "false"),
            Test::Equal(a, b) => write!(out, "{a} = {b}"),
            Test::Less(a, b) => write!(out, "{a} < {b}"),
            Test::Not(a) => write!(out, "not({a})"),
            Test::And(a, b) => write!(out, "({a} and {b})"),
            Test::Or(a, b) => write!(out, "({a} or {b})"),
            Test::Unsync(word) => write!(out, "unsync w{word}"),
            Test::Covered(word) => write!(out, "cov w{word}"),
        }
    }
}

impl Display for Interval {
    fn fmt(&self, out: &mut Formatter<'_>) -> Result {
        match self {
            Interval::All(test) => write!(out, "[{test}]"),
            Interval::One(word) => write!(out, "one w{word}"),
            Interval::Chop(a, b) => write!(out, "({a} ; {b})"),
            Interval::Both(a, b) => write!(out, "both({a}, {b})"),
            Interval::Either(a, b) => write!(out, "either({a}, {b})"),
        }
    }
}

impl Display for Assertion {
    fn fmt(&self, out: &mut Formatter<'_>) -> Result {
        match self {
            Assertion::Sees(thread, interval) => write!(out, "thread {thread} sees {interval}"),
            Assertion::Both(a, b) => write!(out, "both({a}, {b})"),
            Assertion::Either(a, b) => write!(out, "either({a}, {b})"),
            Assertion::Start => write!(out, "start"),
            Assertion::Holds(test) => write!(out, "holds {test}"),
        }
    }
}
