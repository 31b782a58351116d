//! Shared formulas, and constructors that take and give them.

use reference::formula::atoms::{Atom, Atoms};
use reference::formula::replace::{Replace, Replacement};
use reference::formula::{Assertion, Interval, Test, Value};
use std::collections::BTreeSet;
use std::rc::Rc;

/// Assertions, intervals, tests and values; shared, so that copies are cheap.
pub type A = Rc<Assertion>;
pub type I = Rc<Interval>;
pub type T = Rc<Test>;
pub type V = Rc<Value>;

/// The sorts that `both` and `either` join.
pub trait Joined: Sized {
    fn both(a: Rc<Self>, b: Rc<Self>) -> Self;
    fn either(a: Rc<Self>, b: Rc<Self>) -> Self;
}

impl Joined for Assertion {
    fn both(a: A, b: A) -> Assertion {
        Assertion::Both(a, b)
    }
    fn either(a: A, b: A) -> Assertion {
        Assertion::Either(a, b)
    }
}

impl Joined for Interval {
    fn both(a: I, b: I) -> Interval {
        Interval::Both(a, b)
    }
    fn either(a: I, b: I) -> Interval {
        Interval::Either(a, b)
    }
}

pub fn both<S: Joined>(a: &Rc<S>, b: &Rc<S>) -> Rc<S> {
    S::both(a.clone(), b.clone()).into()
}
pub fn either<S: Joined>(a: &Rc<S>, b: &Rc<S>) -> Rc<S> {
    S::either(a.clone(), b.clone()).into()
}

pub fn constant(number: u8) -> V {
    Value::Constant(number).into()
}
pub fn register(number: u8) -> V {
    Value::Register(number).into()
}
pub fn word(number: u8) -> V {
    Value::Word(number).into()
}
pub fn sum(a: &V, b: &V) -> V {
    Value::sum(a.clone(), b.clone()).into()
}

pub fn equal(a: &V, b: &V) -> T {
    Test::equal(a.clone(), b.clone()).into()
}
pub fn less(a: &V, b: &V) -> T {
    Test::less(a.clone(), b.clone()).into()
}
pub fn not(e: &T) -> T {
    Test::negated(e.clone()).into()
}
pub fn and(a: &T, b: &T) -> T {
    Test::and(a.clone(), b.clone()).into()
}
pub fn or(a: &T, b: &T) -> T {
    Test::or(a.clone(), b.clone()).into()
}
/// The test that is always true: not false.
pub fn truth() -> T {
    Test::truth().into()
}
pub fn falsehood() -> T {
    Test::False.into()
}

/// `[e]`
pub fn all(e: &T) -> I {
    Interval::all(e.clone()).into()
}
pub fn chop(a: &I, b: &I) -> I {
    Interval::chop(a.clone(), b.clone()).into()
}

pub fn sees(thread: u8, interval: &I) -> A {
    Assertion::sees(thread, interval.clone()).into()
}
pub fn holds(e: &T) -> A {
    Assertion::holds(e.clone()).into()
}

/// Joins a list by `join`, nested to the right; none for the empty list.
pub fn fold_right<S>(parts: &[Rc<S>], join: fn(&Rc<S>, &Rc<S>) -> Rc<S>) -> Option<Rc<S>> {
    let (last, rest) = parts.split_last()?;
    Some(rest.iter().rev().fold(last.clone(), |joined, part| join(part, &joined)))
}

/// Each once, in order.
pub fn unique<S: PartialEq>(all: impl IntoIterator<Item = S>) -> Vec<S> {
    let mut seen = Vec::new();
    for part in all {
        if !seen.contains(&part) {
            seen.push(part);
        }
    }
    seen
}

/// The formula with a leaf, a register or a word's value, replaced.
pub fn replaced<S: Replace>(tree: &Rc<S>, leaf: Value, by: &V) -> Rc<S> {
    tree.replace(&[Replacement { leaf, by: by.clone() }])
}

/// Is there no word's value and no flag, so that registers decide the test?
pub fn registers_only(tree: &impl Atoms) -> bool {
    !tree.has_atom(|atom| !matches!(atom, Atom::Register(_)))
}

/// The registers named.
pub fn registers_of(tree: &impl Atoms) -> BTreeSet<u8> {
    let mut found = BTreeSet::new();
    tree.visit_atoms(&mut |atom| {
        if let Atom::Register(number) = atom {
            found.insert(number);
        }
    });
    found
}

/// The words named in any role.
pub fn words_of(tree: &impl Atoms) -> BTreeSet<u8> {
    let mut found = BTreeSet::new();
    tree.visit_atoms(&mut |atom| match atom {
        Atom::Word(number) | Atom::Unsync(number) | Atom::Covered(number) | Atom::One(number) => {
            found.insert(number);
        }
        Atom::Register(_) | Atom::Start => {}
    });
    found
}
