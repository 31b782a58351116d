//! Rules 3 to 5 and 47: what a read learns, and what skips writes that are not synchronised.

use super::actions::Load;
use super::triples::{Sides, Triple};
use super::Fit;
use crate::formula::replace::{Replace, Replacement};
use crate::formula::{Assertion, Interval, Test, Value};

/// [e with r replaced by x]: the word has what the register is to have.
pub fn before_load(e: &Test, load: &Load) -> Interval {
    let word = Value::Word(load.word).into();
    Interval::All(e.replace(&[Replacement { leaf: Value::Register(load.register), by: word }]))
}

/// 3 load: t sees [e with r replaced by x] to holds e.
pub fn rule_3(c: &Triple) -> Fit {
    learns(c, &c.action.load()?)
}

/// 47 exchange, fetch-add: as 3.
pub fn rule_47(c: &Triple) -> Fit {
    learns(c, &c.action.fetched()?)
}

/// t sees [e with r replaced by x] to holds e.
fn learns(c: &Triple, load: &Load) -> Fit {
    let e = c.right.as_holds()?;
    Some(**c.left == Assertion::sees(c.thread, before_load(e, load)))
}

/// 4 load: t sees [that];I to either(holds e, Q), from t sees I to Q.
pub fn rule_4(c: &Triple, premise: Sides) -> Fit {
    let load = c.action.load()?;
    let e = c.right.as_either()?.0.as_holds()?;
    let (seer, i) = premise.0.as_sees()?;
    let left = Assertion::sees(c.thread, Interval::chop(before_load(e, &load), i.clone()));
    let right = Assertion::either(Assertion::holds(e.clone()), premise.1.clone());
    Some(seer == c.thread && c.is(left, right)?)
}

/// 5 acquiring load, swap, exchange, fetch-add: t sees [unsync x];I to Q, from t sees I to Q.
pub fn rule_5(c: &Triple, premise: Sides) -> Fit {
    let word = c.action.joined_word()?;
    skips(c, Test::Unsync(word), premise)
}

/// t sees [flag];I to Q, from t sees I to Q.
pub fn skips(c: &Triple, flag: Test, premise: Sides) -> Fit {
    let (seer, i) = premise.0.as_sees()?;
    let left = Assertion::sees(c.thread, Interval::chop(Interval::all(flag), i.clone()));
    Some(seer == c.thread && **c.left == left && c.right == premise.1)
}
