//! Rules 51 to 61: further ones, each proved sound (`crates/logic_further/specs/Further.antt`). No verdict goes by them.
//!
//! The table is of the same kind as the published one, a rule by its number and its premises, and the same lines are
//! tried by it.

use super::rows::implies_by_rows;
use super::triples::{Sides, Triple};
use super::{Fit, Form};
use crate::formula::atoms::{Atom, Atoms};
use crate::formula::replace::{Replace, Replacement};
use crate::formula::{Assertion, Interval, Test, Value};
use crate::image::{Program, Statement};
use std::rc::Rc;

/// The form of a further rule's lines; none for any other rule.
pub fn form(rule: u8) -> Option<Form> {
    match rule {
        51 | 52 | 54 | 55 => Some(Form::Triple),
        53 | 56 | 60 | 61 => Some(Form::Implication),
        57..=59 => Some(Form::Inclusion),
        _ => None,
    }
}

/// Every further rule.
pub fn rules() -> impl Iterator<Item = u8> {
    (0..=u8::MAX).filter(|&rule| form(rule).is_some())
}

/// Whether the statement follows by the further rule from these premises.
pub fn fits(program: &Program, rule: u8, statement: &Statement, premises: &[&Statement]) -> Fit {
    match statement {
        Statement::Triple { .. } => triple(rule, &Triple::of(program, statement)?, premises),
        Statement::Implication { left, right } => match (rule, premises) {
            (53, []) => rule_53(left, right, program.header.counts.range),
            (56, []) => rule_56(left, right),
            (60, []) => Some(right == left.as_both()?.0),
            (61, []) => Some(right == left.as_both()?.1),
            _ => None,
        },
        Statement::Inclusion { left, right } => match (rule, premises) {
            (57, []) => Some(left.as_chop()? == (right, &nothing())),
            (58, []) => Some(left.as_chop()? == (&nothing(), right)),
            (59, []) => rule_59(left, right),
            _ => None,
        },
    }
}

fn triple(rule: u8, c: &Triple, premises: &[&Statement]) -> Fit {
    match (rule, premises) {
        (51, []) => rule_51(c),
        (52, []) => rule_52(c),
        (54, []) => rule_54(c),
        (55, [p]) => rule_55(c, c.premise(p)?),
        _ => None,
    }
}

/// \[false\]
fn nothing() -> Rc<Interval> {
    Interval::all(Test::False).into()
}

/// The test with the value of a word replaced.
fn with_word(e: &Test, word: u8, by: Rc<Value>) -> Interval {
    Interval::All(e.replace(&[Replacement { leaf: Value::Word(word), by }]))
}

/// 51 exchange: as 9; E lacks unsync x, cov x and the result register.
fn rule_51(c: &Triple) -> Fit {
    let exchange = c.action.exchange()?;
    let (u, interval) = c.right.as_sees()?;
    let e = interval.as_all()?;
    let left = Assertion::both(
        Assertion::sees(u, interval.clone()),
        Assertion::sees(u, with_word(e, exchange.word, exchange.value.clone())),
    );
    let barred = [
        Atom::Unsync(exchange.word),
        Atom::Covered(exchange.word),
        Atom::Register(c.action.result()?),
    ];
    Some(!e.as_ref().has_atom(|atom| barred.contains(&atom)) && **c.left == left)
}

/// 52 fetch-add: both(u sees [E], t sees [cov x];[E with x replaced by x + f]) to u sees [E]; E names no word but x, no
/// flag, and not the result register.
fn rule_52(c: &Triple) -> Fit {
    let added = c.action.fetch_add()?;
    let (u, interval) = c.right.as_sees()?;
    let e = interval.as_all()?;
    let sum = Value::sum(Value::Word(added.word), added.value.clone());
    let covered = Interval::all(Test::Covered(added.word));
    let summed = Interval::chop(covered, with_word(e, added.word, sum.into()));
    let left =
        Assertion::both(Assertion::sees(u, interval.clone()), Assertion::sees(c.thread, summed));
    let result = c.action.result()?;
    let is_steady = |atom| match atom {
        Atom::Register(register) => register != result,
        Atom::Word(word) => word == added.word,
        _ => false,
    };
    Some(!e.as_ref().has_atom(|atom| !is_steady(atom)) && **c.left == left)
}

/// What an interval says of a list of a single view, as a test at that view.
pub fn at_last(interval: &Interval) -> Test {
    match interval {
        Interval::All(e) => (**e).clone(),
        Interval::One(_) => Test::truth(),
        Interval::Chop(i, j) | Interval::Either(i, j) => Test::or(at_last(i), at_last(j)),
        Interval::Both(i, j) => Test::and(at_last(i), at_last(j)),
    }
}

/// 53 both(t sees I, u sees J) to holds e, by rows from "I and J at one view" to e.
fn rule_53(left: &Assertion, right: &Assertion, range: u8) -> Fit {
    let (first, second) = left.as_both()?;
    let ((_, i), (_, j)) = (first.as_sees()?, second.as_sees()?);
    implies_by_rows(&Test::and(at_last(i), at_last(j)), right.as_holds()?, range)
}

/// 54 store: u sees both(one x, I) to u sees I;both(one x, [x = f]).
fn rule_54(c: &Triple) -> Fit {
    let store = c.action.store()?;
    let (u, interval) = c.left.as_sees()?;
    let (one, i) = interval.as_both()?;
    let right = Assertion::sees(u, Interval::chop(i.clone(), store.settled()));
    Some(**one == Interval::One(store.word) && **c.right == right)
}

/// 55 store: u sees both(I, one x);J to u sees either(I;(both(one x, [x = f]);J), I;L), from u sees J to u sees L.
fn rule_55(c: &Triple, premise: Sides) -> Fit {
    let store = c.action.store()?;
    let ((u, j), (seer, l)) = (premise.0.as_sees()?, premise.1.as_sees()?);
    let i = c.left.as_sees()?.1.as_chop()?.0.as_both()?.0;
    let first = Interval::both(i.clone(), Interval::One(store.word));
    let left = Assertion::sees(u, Interval::chop(first, j.clone()));
    let between = Interval::chop(i.clone(), Interval::chop(store.settled(), j.clone()));
    let behind = Interval::chop(i.clone(), l.clone());
    Some(u == seer && c.is(left, Assertion::sees(u, Interval::either(between, behind)))?)
}

/// Whether some word is the only one that the interval names, and unsync of it is not named: what the positions of one
/// word decide.
pub fn is_along_one_word(interval: &Interval) -> bool {
    let mut words = Vec::new();
    let mut decided = true;
    interval.visit_atoms(&mut |atom| match atom {
        Atom::Word(word) | Atom::Covered(word) | Atom::One(word) => words.push(word),
        Atom::Register(_) => {}
        Atom::Unsync(_) | Atom::Start => decided = false,
    });
    decided && words.iter().all(|word| *word == words[0])
}

/// 56 u sees either(I, J) to either(u sees I, u sees J); I and J name no word but x, and no unsync.
fn rule_56(left: &Assertion, right: &Assertion) -> Fit {
    let (u, whole) = left.as_sees()?;
    let (i, j) = whole.as_either()?;
    let apart = Assertion::either(Assertion::sees(u, i.clone()), Assertion::sees(u, j.clone()));
    Some(is_along_one_word(whole) && *right == apart)
}

/// 59 both(A, either(B, D)) in either(both(A, B), both(A, D)).
fn rule_59(left: &Interval, right: &Interval) -> Fit {
    let (a, either) = left.as_both()?;
    let (b, d) = either.as_either()?;
    let first = Interval::both(a.clone(), b.clone());
    Some(*right == Interval::either(first, Interval::both(a.clone(), d.clone())))
}
