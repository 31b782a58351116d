//! Constructors that take trees or links to trees, for shapes written out in code.

use super::{Assertion, Formula, Interval, Test, Value};
use std::rc::Rc;

impl Value {
    pub fn sum(a: impl Into<Rc<Value>>, b: impl Into<Rc<Value>>) -> Value {
        Value::Sum(a.into(), b.into())
    }
}

impl Test {
    pub fn equal(a: impl Into<Rc<Value>>, b: impl Into<Rc<Value>>) -> Test {
        Test::Equal(a.into(), b.into())
    }

    pub fn less(a: impl Into<Rc<Value>>, b: impl Into<Rc<Value>>) -> Test {
        Test::Less(a.into(), b.into())
    }

    pub fn negated(a: impl Into<Rc<Test>>) -> Test {
        Test::Not(a.into())
    }

    pub fn and(a: impl Into<Rc<Test>>, b: impl Into<Rc<Test>>) -> Test {
        Test::And(a.into(), b.into())
    }

    pub fn or(a: impl Into<Rc<Test>>, b: impl Into<Rc<Test>>) -> Test {
        Test::Or(a.into(), b.into())
    }

    /// A test that is always true.
    pub fn truth() -> Test {
        Test::negated(Test::False)
    }
}

impl Interval {
    pub fn all(test: impl Into<Rc<Test>>) -> Interval {
        Interval::All(test.into())
    }

    pub fn chop(a: impl Into<Rc<Interval>>, b: impl Into<Rc<Interval>>) -> Interval {
        Interval::Chop(a.into(), b.into())
    }

    pub fn both(a: impl Into<Rc<Interval>>, b: impl Into<Rc<Interval>>) -> Interval {
        Interval::Both(a.into(), b.into())
    }

    pub fn either(a: impl Into<Rc<Interval>>, b: impl Into<Rc<Interval>>) -> Interval {
        Interval::Either(a.into(), b.into())
    }

    /// both(one x, [x = v])
    pub fn one_equal(word: u8, value: impl Into<Rc<Value>>) -> Interval {
        let equation = Test::equal(Value::Word(word), value);
        Interval::both(Interval::One(word), Interval::all(equation))
    }
}

impl Assertion {
    pub fn sees(thread: u8, interval: impl Into<Rc<Interval>>) -> Assertion {
        Assertion::Sees(thread, interval.into())
    }

    pub fn both(a: impl Into<Rc<Assertion>>, b: impl Into<Rc<Assertion>>) -> Assertion {
        Assertion::Both(a.into(), b.into())
    }

    pub fn either(a: impl Into<Rc<Assertion>>, b: impl Into<Rc<Assertion>>) -> Assertion {
        Assertion::Either(a.into(), b.into())
    }

    pub fn holds(test: impl Into<Rc<Test>>) -> Assertion {
        Assertion::Holds(test.into())
    }

    /// An assertion that is always true.
    pub fn truth() -> Assertion {
        Assertion::holds(Test::truth())
    }
}

impl From<Value> for Formula {
    fn from(tree: Value) -> Formula {
        Formula::Value(tree.into())
    }
}

impl From<Test> for Formula {
    fn from(tree: Test) -> Formula {
        Formula::Test(tree.into())
    }
}

impl From<Interval> for Formula {
    fn from(tree: Interval) -> Formula {
        Formula::Interval(tree.into())
    }
}

impl From<Assertion> for Formula {
    fn from(tree: Assertion) -> Formula {
        Formula::Assertion(tree.into())
    }
}
