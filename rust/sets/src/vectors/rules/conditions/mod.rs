//! Side conditions and shapes, each broken by hand in one place.

use super::frame::{image, image_with_marks, value, PLACE};
use crate::vectors::Case;
use reference::formula::{Assertion, Interval, Test, Value};
use reference::proof::{implies, included, triple, Lemma};

mod fetches;
mod inclusions;
mod kept;
mod loads;
mod pairs;
mod rows;
mod start;
mod stores;
mod swaps;
mod table;

pub fn cases() -> Vec<Case> {
    let mut list = List(Vec::new());
    list.kept_by_load();
    list.kept_by_write();
    list.kept_by_both();
    list.assignment();
    list.loads();
    list.settled();
    list.seen_store();
    list.released();
    list.stable();
    list.skipped();
    list.swaps();
    list.fetches();
    list.pairs();
    list.start();
    list.rows();
    list.table();
    list.joined();
    list.intervals();
    list.0
}

const T: u8 = 1;
const U: u8 = 2;
/// The word of the instruction, and another.
const X: u8 = 1;
const Y: u8 = 2;

fn register(number: u8) -> Value {
    Value::Register(number)
}

fn word(number: u8) -> Value {
    Value::Word(number)
}

fn constant(number: u8) -> Value {
    Value::Constant(number)
}

fn is(a: Value, b: Value) -> Test {
    Test::equal(a, b)
}

fn all(test: Test) -> Interval {
    Interval::all(test)
}

fn one(word: u8) -> Interval {
    Interval::One(word)
}

fn sees(thread: u8, interval: Interval) -> Assertion {
    Assertion::sees(thread, interval)
}

fn holds(test: Test) -> Assertion {
    Assertion::holds(test)
}

/// The value that the instruction under test writes: f, and for fetch-add r1 + f.
fn written(operation: u8) -> Value {
    let value = Value::clone(&value());
    match operation {
        8 => Value::sum(register(1), value),
        _ => value,
    }
}

/// both(one x, [x = f]) for the instruction's word and what it writes.
fn settled(operation: u8) -> Interval {
    Interval::both(one(X), all(is(word(X), written(operation))))
}

/// [cov x];one x
fn last_uncovered() -> Interval {
    Interval::chop(all(Test::Covered(X)), one(X))
}

/// Intervals in which a word occurs, by role.
fn roles(number: u8) -> [(&'static str, Interval); 6] {
    let deep = Test::negated(Test::or(Test::False, is(constant(1), sum(word(number)))));
    [
        ("value", all(is(word(number), constant(0)))),
        ("unsync", all(Test::Unsync(number))),
        ("cov", all(Test::Covered(number))),
        ("one", one(number)),
        ("value in a sum", all(deep)),
        ("one, deep", Interval::chop(one(3), Interval::either(all(Test::False), one(number)))),
    ]
}

fn sum(a: Value) -> Value {
    Value::sum(constant(2), Value::sum(a, constant(3)))
}

struct List(Vec<Case>);

impl List {
    fn add(&mut self, label: impl Into<String>, operation: u8, lemma: &Lemma) {
        self.0.push(Case::new(label, image(operation, lemma)));
    }

    fn triple(&mut self, label: &str, rule: u8, operation: u8, left: Assertion, right: Assertion) {
        let label = format!("rule {rule}: {label}, operation {operation}");
        self.add(label, operation, &triple(rule, PLACE, left, right, &[]));
    }

    /// Several triples of a rule: label, left, right.
    fn triples<const N: usize>(
        &mut self,
        rule: u8,
        operation: u8,
        rows: [(&str, Assertion, Assertion); N],
    ) {
        for (label, left, right) in rows {
            self.triple(label, rule, operation, left, right);
        }
    }

    /// Several implications of a rule: label, left, right.
    fn implications<const N: usize>(&mut self, rule: u8, rows: [(&str, Assertion, Assertion); N]) {
        for (label, left, right) in rows {
            self.implication(label, rule, left, right);
        }
    }

    fn implication(&mut self, label: &str, rule: u8, left: Assertion, right: Assertion) {
        self.add(format!("rule {rule}: {label}"), 3, &implies(rule, left, right, &[]));
    }

    fn inclusion(&mut self, label: &str, rule: u8, left: Interval, right: Interval) {
        self.add(format!("rule {rule}: {label}"), 3, &included(rule, left, right, &[]));
    }

    fn same(&mut self, label: &str, operation: u8, kept: Assertion) {
        self.triple(label, 1, operation, kept.clone(), kept);
    }
}
