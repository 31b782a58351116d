//! Formulas as typed trees, one type per sort.
//!
//! The prefix form of a tree is unique, so "compared by bytes" is equality of trees.

pub mod atoms;
pub mod build;
pub mod encode;
pub mod evaluate;
pub mod nesting;
pub mod parse;
pub mod replace;
mod show;

use std::rc::Rc;

/// A number below the range of the image.
#[derive(Clone, Debug, PartialEq, Eq, Hash)]
pub enum Value {
    Constant(u8),
    Register(u8),
    Word(u8),
    Sum(Rc<Value>, Rc<Value>),
}

/// A truth value at one view.
#[derive(Clone, Debug, PartialEq, Eq, Hash)]
pub enum Test {
    False,
    Equal(Rc<Value>, Rc<Value>),
    Less(Rc<Value>, Rc<Value>),
    Not(Rc<Test>),
    And(Rc<Test>, Rc<Test>),
    Or(Rc<Test>, Rc<Test>),
    Unsync(u8),
    Covered(u8),
}

/// A property of a list of views.
#[derive(Clone, Debug, PartialEq, Eq, Hash)]
pub enum Interval {
    /// The test is true at each view.
    All(Rc<Test>),
    /// All views name the same write of the word.
    One(u8),
    Chop(Rc<Interval>, Rc<Interval>),
    Both(Rc<Interval>, Rc<Interval>),
    Either(Rc<Interval>, Rc<Interval>),
}

/// A property of a state.
#[derive(Clone, Debug, PartialEq, Eq, Hash)]
pub enum Assertion {
    /// Every prospect of the thread satisfies the interval.
    Sees(u8, Rc<Interval>),
    Both(Rc<Assertion>, Rc<Assertion>),
    Either(Rc<Assertion>, Rc<Assertion>),
    Start,
    /// The test is true of the registers.
    Holds(Rc<Test>),
}

/// The four sorts, in the order in which their codes are numbered.
#[derive(Clone, Copy, Debug, PartialEq, Eq, Hash)]
pub enum Sort {
    Value,
    Test,
    Interval,
    Assertion,
}

/// A formula of any sort.
#[derive(Clone, Debug, PartialEq, Eq, Hash)]
pub enum Formula {
    Value(Rc<Value>),
    Test(Rc<Test>),
    Interval(Rc<Interval>),
    Assertion(Rc<Assertion>),
}

impl Formula {
    pub fn sort(&self) -> Sort {
        match self {
            Formula::Value(_) => Sort::Value,
            Formula::Test(_) => Sort::Test,
            Formula::Interval(_) => Sort::Interval,
            Formula::Assertion(_) => Sort::Assertion,
        }
    }

    /// The tree of a value; none for another sort.
    pub fn value(&self) -> Option<Rc<Value>> {
        match self {
            Formula::Value(tree) => Some(tree.clone()),
            _ => None,
        }
    }

    /// The tree of a test; none for another sort.
    pub fn test(&self) -> Option<Rc<Test>> {
        match self {
            Formula::Test(tree) => Some(tree.clone()),
            _ => None,
        }
    }

    /// The tree of an interval; none for another sort.
    pub fn interval(&self) -> Option<Rc<Interval>> {
        match self {
            Formula::Interval(tree) => Some(tree.clone()),
            _ => None,
        }
    }

    /// The tree of an assertion; none for another sort.
    pub fn assertion(&self) -> Option<Rc<Assertion>> {
        match self {
            Formula::Assertion(tree) => Some(tree.clone()),
            _ => None,
        }
    }
}

#[cfg(test)]
mod tests;
