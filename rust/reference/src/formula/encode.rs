//! The prefix form of a formula.

use super::{Assertion, Formula, Interval, Test, Value};

/// A tree that has a prefix form.
pub trait Encode {
    /// Appends the prefix form.
    fn encode_to(&self, out: &mut Vec<u8>);

    /// The prefix form.
    fn encode(&self) -> Vec<u8> {
        let mut out = Vec::new();
        self.encode_to(&mut out);
        out
    }
}

/// Appends a code and the forms of its parts.
fn put(out: &mut Vec<u8>, code: u8, parts: &[&dyn Encode]) {
    out.push(code);
    for part in parts {
        part.encode_to(out);
    }
}

impl Encode for u8 {
    fn encode_to(&self, out: &mut Vec<u8>) {
        out.push(*self);
    }
}

impl<T: Encode> Encode for std::rc::Rc<T> {
    fn encode_to(&self, out: &mut Vec<u8>) {
        self.as_ref().encode_to(out);
    }
}

impl Encode for Value {
    fn encode_to(&self, out: &mut Vec<u8>) {
        match self {
            Value::Constant(number) => put(out, 0, &[number]),
            Value::Register(number) => put(out, 1, &[number]),
            Value::Word(number) => put(out, 2, &[number]),
            Value::Sum(a, b) => put(out, 3, &[a, b]),
        }
    }
}

impl Encode for Test {
    fn encode_to(&self, out: &mut Vec<u8>) {
        match self {
            Test::False => put(out, 8, &[]),
            Test::Equal(a, b) => put(out, 9, &[a, b]),
            Test::Less(a, b) => put(out, 10, &[a, b]),
            Test::Not(a) => put(out, 11, &[a]),
            Test::And(a, b) => put(out, 12, &[a, b]),
            Test::Or(a, b) => put(out, 13, &[a, b]),
            Test::Unsync(word) => put(out, 14, &[word]),
            Test::Covered(word) => put(out, 15, &[word]),
        }
    }
}

impl Encode for Interval {
    fn encode_to(&self, out: &mut Vec<u8>) {
        match self {
            Interval::All(test) => put(out, 16, &[test]),
            Interval::One(word) => put(out, 17, &[word]),
            Interval::Chop(a, b) => put(out, 18, &[a, b]),
            Interval::Both(a, b) => put(out, 19, &[a, b]),
            Interval::Either(a, b) => put(out, 20, &[a, b]),
        }
    }
}

impl Encode for Assertion {
    fn encode_to(&self, out: &mut Vec<u8>) {
        match self {
            Assertion::Sees(thread, interval) => put(out, 24, &[thread, interval]),
            Assertion::Both(a, b) => put(out, 25, &[a, b]),
            Assertion::Either(a, b) => put(out, 26, &[a, b]),
            Assertion::Start => put(out, 27, &[]),
            Assertion::Holds(test) => put(out, 28, &[test]),
        }
    }
}

impl Encode for Formula {
    fn encode_to(&self, out: &mut Vec<u8>) {
        match self {
            Formula::Value(tree) => tree.encode_to(out),
            Formula::Test(tree) => tree.encode_to(out),
            Formula::Interval(tree) => tree.encode_to(out),
            Formula::Assertion(tree) => tree.encode_to(out),
        }
    }
}
