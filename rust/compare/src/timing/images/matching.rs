//! Lines by the rules with the longest templates, about long formulas.

use super::repeated;
use reference::assemble::Plan;
use reference::formula::parse::Counts;
use reference::formula::{Assertion, Interval, Test, Value};
use reference::image::{Access, Header};
use reference::proof::{around, implies, included, triple, Lemma};
use sets::examples::deep::chops;
use sets::generate::harness;
use std::rc::Rc;

/// Lines of each rule with formulas of their own.
const VARIANTS: usize = 20;
/// The word that the instructions write; the long intervals speak of others.
const X: u8 = 8;
const STORE: (u8, u8) = (1, 0);
const SWAP: (u8, u8) = (1, 1);
const OTHER: u8 = 2;

pub fn image(most: usize) -> Vec<u8> {
    let mut plan = plan();
    plan.spare = (0..VARIANTS).flat_map(|variant| lines(variant * 3)).collect();
    repeated(&plan, &[7, 8, 12, 13, 16, 38], most)
}

/// A releasing store and a swap of a sum, by a thread beside another.
pub fn plan() -> Plan {
    let counts = Counts { threads: 2, words: 8, registers: 4, range: 8 };
    let header = Header::cleared(counts, vec![0; 8], vec![1; 4]);
    let store = Access::Store { word: X, value: value().into(), releasing: true }.into();
    let swap = Access::Swap { word: X, value: value().into() }.into();
    harness::plan(harness::program(header, vec![vec![store, swap], Vec::new()]))
}

/// The sum that is written.
fn value() -> Value {
    let registers =
        Value::sum(Value::Register(1), Value::sum(Value::Register(2), Value::Register(3)));
    Value::sum(registers, Value::sum(Value::Register(4), Value::Constant(1)))
}

/// A line by each rule.
fn lines(seed: usize) -> [Lemma; 6] {
    let spread = {
        let (k, a, b) = (chops(seed, 4), chops(seed + 1, 4), chops(seed + 2, 4));
        let parts = Interval::chop(
            Interval::both(k.clone(), a.clone()),
            Interval::both(k.clone(), b.clone()),
        );
        included(38, Interval::both(k, Interval::chop(a, b)), parts, &[])
    };
    [stored(seed), released(seed), swapped(), released_by_swap(seed), between(seed), spread]
}

fn sees(thread: u8, interval: impl Into<Rc<Interval>>) -> Assertion {
    Assertion::sees(thread, interval)
}

/// both(one x, [x = f])
fn settled() -> Interval {
    Interval::both(Interval::One(X), Interval::all(Test::equal(Value::Word(X), value())))
}

fn covered() -> Interval {
    Interval::all(Test::Covered(X))
}

/// [cov x];one x
fn covered_till_last() -> Interval {
    Interval::chop(covered(), Interval::One(X))
}

fn behind(j: Interval) -> Interval {
    Interval::chop(Interval::all(Test::Unsync(X)), j)
}

/// Rule 7.
pub fn stored(seed: usize) -> Lemma {
    let i = chops(seed, 10);
    let left = Assertion::both(sees(1, Interval::One(X)), sees(OTHER, i.clone()));
    triple(7, STORE, left, sees(OTHER, Interval::chop(i, settled())), &[])
}

/// Rule 8.
fn released(seed: usize) -> Lemma {
    let (i, j) = (chops(seed, 9), chops(seed + 1, 9));
    let known = Assertion::both(sees(OTHER, i.clone()), sees(1, j.clone()));
    let left = Assertion::both(sees(1, Interval::One(X)), known);
    triple(8, STORE, left, sees(OTHER, Interval::chop(i, behind(j))), &[])
}

/// Rule 12.
fn swapped() -> Lemma {
    let left = Assertion::both(sees(1, covered_till_last()), sees(OTHER, covered_till_last()));
    triple(12, SWAP, left, sees(OTHER, Interval::chop(covered(), settled())), &[])
}

/// Rule 13.
fn released_by_swap(seed: usize) -> Lemma {
    let j = chops(seed, 9);
    let known = Assertion::both(sees(OTHER, covered_till_last()), sees(1, j.clone()));
    let left = Assertion::both(sees(1, covered_till_last()), known);
    triple(13, SWAP, left, sees(OTHER, Interval::chop(covered(), behind(j))), &[])
}

/// Rule 16, from an assertion to itself.
fn between(seed: usize) -> Lemma {
    let same = || sees(OTHER, chops(seed, 10));
    let step = implies(20, same(), same(), &[]);
    around(&step, &triple(1, STORE, same(), same(), &[]), &step)
}
