//! Values, sums and rows of every range.

use super::limits::{case_of_range, over};
use crate::vectors::Case;
use reference::formula::{Assertion, Interval, Test, Value};
use reference::proof::{implies, included};

pub fn cases() -> Vec<Case> {
    (2..=16).flat_map(|range| [rows(range), values(range)].concat()).collect()
}

/// As many names as there are rows for, as many flags besides, and one more of each.
fn rows(range: u8) -> Vec<Case> {
    let most = |base: usize, room: usize| {
        (0..).take_while(|&count| base.pow(count) <= room).count() as u8 - 1
    };
    let names = most(range.into(), 4096);
    let flags = most(2, 4096 / usize::from(range).pow(names.into()));
    let mut cases = Vec::new();
    for (names, flags) in [(names, 0), (names + 1, 0), (names, flags), (names, flags + 1)] {
        let mut add = |kind: &str, test: Test| {
            let label = format!("rule 30: range {range}, {names} {kind}, {flags} flags");
            let lemma = included(30, Interval::all(test.clone()), Interval::all(test), &[]);
            if !cases.iter().any(|case: &Case| case.label == label) {
                cases.push(case_of_range(range, label, &lemma));
            }
        };
        add("registers", over(names, 0, flags, 0));
        add("words and registers", over(names - names.min(2), names.min(2), 0, flags));
    }
    cases
}

/// What is true of the greatest value, and of sums past it.
fn values(range: u8) -> Vec<Case> {
    let (last, r) = (range - 1, || Value::Register(1));
    let is = |a: Value, number: u8| Test::equal(a, Value::Constant(number));
    let next = || Value::sum(r(), Value::Constant(1));
    let twice = || Value::sum(Value::Constant(last), Value::Constant(last));
    let nothing_above = Test::negated(Test::less(Value::Constant(last), r()));
    let pairs = [
        ("a sum past the last is 0", is(r(), last), is(next(), 0)),
        ("a sum up to the last is it", is(r(), last - 1), is(next(), last)),
        ("the last twice is the last but one", Test::truth(), is(twice(), last - 1)),
        ("no value is above the last", Test::truth(), nothing_above),
        ("the last is a value", Test::truth(), Test::less(r(), Value::Constant(last))),
        ("one added is another value", Test::truth(), Test::negated(Test::equal(r(), next()))),
    ];
    let case = |(label, left, right): (&str, Test, Test)| {
        let label = format!("rule 21: range {range}, {label}");
        let lemma = implies(21, Assertion::holds(left), Assertion::holds(right), &[]);
        case_of_range(range, label, &lemma)
    };
    pairs.into_iter().map(case).collect()
}
