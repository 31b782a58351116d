//! Pairs of tests of which the first implies the second by rows.

use super::Setting;
use crate::generate::vocabulary::Vocabulary;
use reference::formula::{Test, Value};
use std::rc::Rc;

type Pair = (Rc<Test>, Rc<Test>);

/// A pair over a vocabulary for the left and one for the right side.
///
/// The common part is over the names of both; the rest is over one side's own.
pub fn pair(s: &mut Setting, left: &Vocabulary, common: &Vocabulary, right: &Vocabulary) -> Pair {
    let shared = common.test(s.random, 1);
    match s.random.below(6) {
        0 => (Test::and(shared.clone(), left.test(s.random, 1)).into(), shared),
        5 => wide(s, common),
        1 => (shared.clone(), Test::or(right.test(s.random, 1), shared).into()),
        2 => order(s, common),
        3 => sums(s, common),
        _ => (shared.clone(), shared),
    }
}

/// Facts about order: equal values are not less, and less excludes more.
fn order(s: &mut Setting, common: &Vocabulary) -> Pair {
    let (a, b) = (common.value(s.random, 1), common.value(s.random, 1));
    let left = if s.random.chance(50) {
        Test::equal(a.clone(), b.clone())
    } else {
        Test::less(b.clone(), a.clone())
    };
    (left.into(), Test::negated(Test::less(a, b)).into())
}

/// Facts about sums, which are modulo the range.
fn sums(s: &mut Setting, common: &Vocabulary) -> Pair {
    let (a, b) = (common.value(s.random, 0), common.value(s.random, 0));
    let moved = s.random.between(1, common.range - 1);
    let sum = Value::sum(a.clone(), Value::Constant(moved));
    let equal = Test::equal(sum.clone(), Value::sum(b.clone(), Value::Constant(moved)));
    match s.random.below(3) {
        0 => (Test::equal(a, b).into(), equal.into()),
        1 => (equal.into(), Test::equal(a, b).into()),
        _ => (Test::truth().into(), Test::negated(Test::equal(a, sum)).into()),
    }
}

/// A conjunction of some tests over many names, close to the most rows allowed.
fn wide(s: &mut Setting, common: &Vocabulary) -> Pair {
    let first = common.test(s.random, 0);
    let parts = s.random.between(1, 4);
    let all =
        (0..parts).fold(first.clone(), |all, _| Rc::new(Test::And(all, common.test(s.random, 0))));
    (all, first)
}
