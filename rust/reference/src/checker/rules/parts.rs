//! Taking formulas apart; `None` where the outermost code is another one.

use crate::formula::{Assertion, Interval, Test};
use std::rc::Rc;

type Pair<'a, T> = Option<(&'a Rc<T>, &'a Rc<T>)>;

impl Assertion {
    pub fn as_sees(&self) -> Option<(u8, &Rc<Interval>)> {
        match self {
            Assertion::Sees(thread, interval) => Some((*thread, interval)),
            _ => None,
        }
    }

    pub fn as_both(&self) -> Pair<'_, Assertion> {
        match self {
            Assertion::Both(a, b) => Some((a, b)),
            _ => None,
        }
    }

    pub fn as_either(&self) -> Pair<'_, Assertion> {
        match self {
            Assertion::Either(a, b) => Some((a, b)),
            _ => None,
        }
    }

    pub fn as_holds(&self) -> Option<&Rc<Test>> {
        match self {
            Assertion::Holds(test) => Some(test),
            _ => None,
        }
    }
}

impl Interval {
    pub fn as_all(&self) -> Option<&Rc<Test>> {
        match self {
            Interval::All(test) => Some(test),
            _ => None,
        }
    }

    pub fn as_chop(&self) -> Pair<'_, Interval> {
        match self {
            Interval::Chop(a, b) => Some((a, b)),
            _ => None,
        }
    }

    pub fn as_both(&self) -> Pair<'_, Interval> {
        match self {
            Interval::Both(a, b) => Some((a, b)),
            _ => None,
        }
    }

    pub fn as_either(&self) -> Pair<'_, Interval> {
        match self {
            Interval::Either(a, b) => Some((a, b)),
            _ => None,
        }
    }
}
