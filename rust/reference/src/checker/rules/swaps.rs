//! Rules 11 to 13, 48 and 49: a swap by a thread that sees only covered writes before the last.

use super::actions::Write;
use super::triples::Triple;
use super::Fit;
use crate::formula::atoms::Atoms;
use crate::formula::{Assertion, Interval, Test};

fn covered(word: u8) -> Interval {
    Interval::all(Test::Covered(word))
}

/// C = [cov x];one x
pub fn covered_till_last(word: u8) -> Interval {
    Interval::chop(covered(word), Interval::One(word))
}

/// 11 swap: t sees C to t sees both(one x, [x = f]).
pub fn rule_11(c: &Triple) -> Fit {
    settles(c, &c.action.swap()?)
}

/// 48 exchange, fetch-add: as 11, for fetch-add with [x = register + f].
pub fn rule_48(c: &Triple) -> Fit {
    settles(c, &c.action.fetching()?)
}

/// t sees C to t sees both(one x, [x = f]).
fn settles(c: &Triple, write: &Write) -> Fit {
    let left = Assertion::sees(c.thread, covered_till_last(write.word));
    c.is(left, Assertion::sees(c.thread, write.settled()))
}

/// 12 swap: both(t sees C, u sees C) to u sees [cov x];both(one x, [x = f]).
pub fn rule_12(c: &Triple) -> Fit {
    is_seen(c, &c.action.swap()?)
}

/// 49 exchange, fetch-add: as 12, for fetch-add with [x = register + f].
pub fn rule_49(c: &Triple) -> Fit {
    is_seen(c, &c.action.fetching()?)
}

/// both(t sees C, u sees C) to u sees [cov x];both(one x, [x = f]).
fn is_seen(c: &Triple, write: &Write) -> Fit {
    let (u, _) = c.right.as_sees()?;
    let left = Assertion::both(
        Assertion::sees(c.thread, covered_till_last(write.word)),
        Assertion::sees(u, covered_till_last(write.word)),
    );
    c.is(left, Assertion::sees(u, Interval::chop(covered(write.word), write.settled())))
}

/// 13 swap, exchange, fetch-add: both(t sees C, both(u sees C, t sees J)), x and the
/// register not in J, to u sees [cov x];([unsync x];J).
pub fn rule_13(c: &Triple) -> Fit {
    let word = c.action.covered_word()?;
    let (observer, actor) = c.left.as_both()?.1.as_both()?;
    let ((u, _), (_, j)) = (observer.as_sees()?, actor.as_sees()?);
    let left = Assertion::both(
        Assertion::sees(c.thread, covered_till_last(word)),
        Assertion::both(
            Assertion::sees(u, covered_till_last(word)),
            Assertion::sees(c.thread, j.clone()),
        ),
    );
    let behind = Interval::chop(Interval::all(Test::Unsync(word)), j.clone());
    let right = Assertion::sees(u, Interval::chop(covered(word), behind));
    let set = c.action.result().is_some_and(|register| j.has_register(register));
    Some(!j.has_word(word) && !set && c.is(left, right)?)
}
