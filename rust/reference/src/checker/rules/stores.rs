//! Rules 6 to 10: what a store does to what threads see (9 for swaps too, 10 for every write).

use super::loads::skips;
use super::triples::{Sides, Triple};
use super::Fit;
use crate::formula::atoms::{Atom, Atoms};
use crate::formula::replace::{Replace, Replacement};
use crate::formula::{Assertion, Interval, Test, Value};

/// 6 store: t sees one x to t sees both(one x, [x = f]).
pub fn rule_6(c: &Triple) -> Fit {
    let store = c.action.store()?;
    let left = Assertion::sees(c.thread, Interval::One(store.word));
    c.is(left, Assertion::sees(c.thread, store.settled()))
}

/// 7 store: both(t sees one x, u sees I) to u sees I;both(one x, [x = f]).
pub fn rule_7(c: &Triple) -> Fit {
    let store = c.action.store()?;
    let (u, i) = c.left.as_both()?.1.as_sees()?;
    let actor_last = Assertion::sees(c.thread, Interval::One(store.word));
    let left = Assertion::both(actor_last, Assertion::sees(u, i.clone()));
    c.is(left, Assertion::sees(u, Interval::chop(i.clone(), store.settled())))
}

/// 8 releasing store: both(t sees one x, both(u sees I, t sees J)), x not in J,
/// to u sees I;([unsync x];J).
pub fn rule_8(c: &Triple) -> Fit {
    let store = c.action.releasing_store()?;
    let (observer, actor) = c.left.as_both()?.1.as_both()?;
    let ((u, i), (_, j)) = (observer.as_sees()?, actor.as_sees()?);
    let actor_last = Assertion::sees(c.thread, Interval::One(store.word));
    let passed_on = Assertion::sees(c.thread, j.clone());
    let left =
        Assertion::both(actor_last, Assertion::both(Assertion::sees(u, i.clone()), passed_on));
    let behind = Interval::chop(Interval::all(Test::Unsync(store.word)), j.clone());
    let right = Assertion::sees(u, Interval::chop(i.clone(), behind));
    Some(!j.as_ref().has_word(store.word) && c.is(left, right)?)
}

/// 9 store, swap: both(u sees [E], u sees [E with x replaced by f]) to u sees [E];
/// E lacks unsync x and cov x.
pub fn rule_9(c: &Triple) -> Fit {
    let write = c.action.store_or_swap()?;
    let (u, interval) = c.right.as_sees()?;
    let e = interval.as_all()?;
    let after =
        e.replace(&[Replacement { leaf: Value::Word(write.word), by: write.value.clone() }]);
    let left = Assertion::both(
        Assertion::sees(u, Interval::all(e.clone())),
        Assertion::sees(u, Interval::All(after)),
    );
    let flags = [Atom::Unsync(write.word), Atom::Covered(write.word)];
    let flagged = e.as_ref().has_atom(|atom| flags.contains(&atom));
    Some(!flagged && **c.left == left)
}

/// 10 store, swap, exchange, fetch-add: as 5 with [cov x].
pub fn rule_10(c: &Triple, premise: Sides) -> Fit {
    let word = c.action.written_word()?;
    skips(c, Test::Covered(word), premise)
}
