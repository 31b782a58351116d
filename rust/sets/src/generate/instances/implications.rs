//! Instances of rules 20 to 27.

use super::tests_by_rows::pair;
use super::{inclusions, Setting};
use reference::formula::{Assertion, Interval, Test, Value};
use reference::proof::{implies, seen, Lemma};
use std::rc::Rc;

pub fn instance(s: &mut Setting, rule: u8) -> Lemma {
    let plain = s.vocabulary().registers_only();
    let all = s.vocabulary();
    match rule {
        20 => by_table(s),
        21 => {
            let (left, right) = pair(s, &plain, &plain, &plain);
            implies(21, Assertion::Holds(left), Assertion::Holds(right), &[])
        }
        22 => {
            let (thread, inclusion) = (s.thread(), inclusions::any(s));
            seen(thread, &inclusion)
        }
        23 => {
            let (left, right) = pair(s, &all, &plain, &plain);
            let left = Assertion::sees(s.thread(), Interval::All(left));
            implies(23, left, Assertion::Holds(right), &[])
        }
        24 => {
            let (left, right) = pair(s, &plain, &plain, &all);
            let right = Assertion::sees(s.thread(), Interval::All(right));
            implies(24, Assertion::Holds(left), right, &[])
        }
        25 => joined(s),
        26 => initial_word(s),
        _ => initial_register(s),
    }
}

/// Any implication but one by truth table.
fn any(s: &mut Setting) -> Lemma {
    let rule = *s.random.pick(&[21, 22, 23, 24, 25, 26]);
    instance(s, rule)
}

fn joined(s: &mut Setting) -> Lemma {
    let (t, i, j) = (s.thread(), s.interval(), s.interval());
    let left = Assertion::both(Assertion::sees(t, i.clone()), Assertion::sees(t, j.clone()));
    implies(25, left, Assertion::sees(t, Interval::both(i, j)), &[])
}

fn initial_word(s: &mut Setting) -> Lemma {
    let word = s.random.between(1, s.header.counts.words);
    let value = Value::Constant(s.header.start[usize::from(word) - 1]);
    let equation = Interval::all(Test::equal(Value::Word(word), value));
    let right = Assertion::sees(s.thread(), Interval::both(Interval::One(word), equation));
    implies(26, Assertion::Start, right, &[])
}

/// Rule 27 has an instance only where there is a register that starts at 0. Now and then the register is open, and the
/// line not justified.
fn initial_register(s: &mut Setting) -> Lemma {
    let cleared = |register: &u8| s.header.is_cleared(*register);
    let registers = 1..=s.header.counts.registers;
    let (cleared, open): (Vec<u8>, Vec<u8>) = registers.partition(cleared);
    let trusts_open = !open.is_empty() && s.random.chance(15);
    let registers = if trusts_open { open } else { cleared };
    if registers.is_empty() {
        return initial_word(s);
    }
    let register = Value::Register(*s.random.pick(&registers));
    let zero = Test::equal(register, Value::Constant(0));
    implies(27, Assertion::Start, Assertion::holds(zero), &[])
}

/// An implication by truth table, from up to four premises.
fn by_table(s: &mut Setting) -> Lemma {
    let premises: Vec<Lemma> = (0..s.random.below(5)).map(|_| any(s)).collect();
    let premises: Vec<&Lemma> = premises.iter().collect();
    let (left, right) = match premises.first() {
        Some(first) => {
            let (left, right) = first.assertions();
            (left.clone(), right.clone())
        }
        None => {
            let same = s.assertion();
            (same.clone(), same)
        }
    };
    let (left, right) = propositionally_weaker(s, left, right);
    implies(20, left, right, &premises)
}

/// Sides that follow from "left implies right" by truth table.
fn propositionally_weaker(
    s: &mut Setting,
    left: Rc<Assertion>,
    right: Rc<Assertion>,
) -> (Rc<Assertion>, Rc<Assertion>) {
    let more = s.vocabulary().assertion(s.random, 0);
    let contradiction = Assertion::holds(Test::and(Test::truth(), Test::False));
    match s.random.below(6) {
        0 => (Assertion::both(more, left).into(), right),
        1 => (left, Assertion::either(right, more).into()),
        2 => (Assertion::both(left, more.clone()).into(), Assertion::both(more, right).into()),
        3 => (Assertion::either(more.clone(), left).into(), Assertion::either(right, more).into()),
        4 => (Assertion::either(contradiction, left).into(), right),
        _ => (left, right),
    }
}
