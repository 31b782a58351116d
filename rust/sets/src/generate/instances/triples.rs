//! Instances of rules 1 to 16 and 47 to 50.

use super::{pairs, Setting};
use crate::generate::vocabulary::Vocabulary;
use reference::checker::rules::before_notes;
use reference::formula::replace::{Replace, Replacement};
use reference::formula::{Assertion, Interval, Test, Value};
use reference::image::Access;
use reference::proof::{around, choice, implies, pair, triple, Lemma};
use std::rc::Rc;

pub fn instance(s: &mut Setting, rule: u8) -> Lemma {
    match rule {
        1 => {
            let same = s.untouched().assertion(s.random, 1);
            triple(1, s.place, same.clone(), same, &[])
        }
        2 => assignment(s),
        3 | 47 => {
            let (left, right) = loaded(s);
            triple(rule, s.place, s.actor(left), Assertion::Holds(right), &[])
        }
        4 => load_or_later(s),
        5 => skipping(s, 5, Test::Unsync(s.word())),
        6 => triple(6, s.place, s.actor(Interval::One(s.word())), s.actor(s.settled()), &[]),
        7 => seen_store(s),
        8 => released(s),
        9 => stable_test(s),
        10 => skipping(s, 10, Test::Covered(s.word())),
        11 | 48 => triple(rule, s.place, s.actor(s.last_uncovered()), s.actor(s.settled()), &[]),
        12 | 49 => seen_swap(s, rule),
        13 => released_swap(s),
        14 => {
            let (p, q) = (any(s), any(s));
            pair(&p, &q)
        }
        15 => {
            let (p, q) = (any(s), any(s));
            choice(&p, &q)
        }
        16 => consequence(s),
        _ => pairs::whole(s),
    }
}

/// Any instance without premises that fits the instruction, a pair's for its first half.
pub(super) fn any(s: &mut Setting) -> Lemma {
    let rules: &[u8] = match s.action.access() {
        None => &[2],
        Some(Access::Load { .. }) => &[1, 3],
        Some(Access::Store { releasing: false, .. }) => &[1, 6, 7, 9],
        Some(Access::Store { releasing: true, .. }) => &[1, 6, 7, 8, 9],
        Some(Access::Swap { .. }) => &[1, 9, 11, 12, 13],
        Some(Access::Exchange { .. } | Access::FetchAdd { .. }) => &[1, 13, 47, 48, 49],
    };
    let rule = *s.random.pick(rules);
    instance(s, rule)
}

impl Setting<'_> {
    /// The word of the instruction; 0 for an assignment.
    fn word(&self) -> u8 {
        self.action.word().unwrap_or(0)
    }

    /// The register that the instruction sets; 0 if none.
    fn register(&self) -> u8 {
        self.action.result().unwrap_or(0)
    }

    /// The names that rule 1 lets stand.
    pub(super) fn untouched(&self) -> Vocabulary {
        let names = self.vocabulary().without_register(self.register());
        match self.action.access() {
            Some(Access::Load { .. }) => names,
            _ => names.without_word(self.word()),
        }
    }

    /// The acting thread sees the interval.
    fn actor(&self, interval: impl Into<Rc<Interval>>) -> Assertion {
        Assertion::sees(self.place.0, interval)
    }

    /// What the word equals after the instruction, which writes.
    fn written(&self) -> Rc<Value> {
        match self.action.access() {
            Some(
                Access::Store { value, .. }
                | Access::Swap { value, .. }
                | Access::Exchange { value, .. },
            ) => value.clone(),
            Some(Access::FetchAdd { register, value, .. }) => {
                Value::sum(Value::Register(*register), value.clone()).into()
            }
            _ => Rc::new(Value::Constant(0)),
        }
    }

    /// both(one x, [x = f])
    fn settled(&self) -> Interval {
        let equation = Test::equal(Value::Word(self.word()), self.written());
        Interval::both(Interval::One(self.word()), Interval::all(equation))
    }

    fn covered(&self) -> Interval {
        Interval::all(Test::Covered(self.word()))
    }

    /// [cov x];one x
    fn last_uncovered(&self) -> Interval {
        Interval::chop(self.covered(), Interval::One(self.word()))
    }
}

fn assignment(s: &mut Setting) -> Lemma {
    let notes = s.action.assignments().expect("rule 2 is about assignments");
    let right = s.assertion();
    let left = before_notes(&right, notes);
    triple(2, s.place, left, right, &[])
}

/// [e with r replaced by x] and e.
fn loaded(s: &mut Setting) -> (Interval, Rc<Test>) {
    let e = s.vocabulary().registers_only().test(s.random, 1);
    let word = Value::Word(s.word()).into();
    let before = e.replace(&[Replacement { leaf: Value::Register(s.register()), by: word }]);
    (Interval::All(before), e)
}

/// A triple whose left side says what the acting thread sees.
fn tail(s: &mut Setting) -> Lemma {
    let same = Assertion::sees(s.place.0, s.untouched().interval(s.random, 1));
    let kept = triple(1, s.place, same.clone(), same, &[]);
    if s.random.chance(50) {
        return kept;
    }
    match s.action.access() {
        Some(Access::Load { .. }) => instance(s, 3),
        Some(Access::Store { .. }) => instance(s, 6),
        Some(Access::Swap { .. }) => instance(s, 11),
        Some(Access::Exchange { .. } | Access::FetchAdd { .. }) => {
            let rule = *s.random.pick(&[47, 48]);
            instance(s, rule)
        }
        None => kept,
    }
}

/// The interval that the left side of a triple says is seen.
fn seen_on_left(lemma: &Lemma) -> Rc<Interval> {
    match lemma.assertions().0.as_ref() {
        Assertion::Sees(_, interval) => interval.clone(),
        _ => panic!("the left side says what is seen"),
    }
}

fn load_or_later(s: &mut Setting) -> Lemma {
    let premise = tail(s);
    let (before, e) = loaded(s);
    let left = s.actor(Interval::chop(before, seen_on_left(&premise)));
    let right = Assertion::either(Assertion::Holds(e), premise.assertions().1.clone());
    triple(4, s.place, left, right, &[&premise])
}

/// Rules 5 and 10: the flag is false where the thread arrives.
fn skipping(s: &mut Setting, rule: u8, flag: Test) -> Lemma {
    let premise = tail(s);
    let left = s.actor(Interval::chop(Interval::all(flag), seen_on_left(&premise)));
    triple(rule, s.place, left, premise.assertions().1.clone(), &[&premise])
}

fn seen_store(s: &mut Setting) -> Lemma {
    let (u, i) = (s.thread(), s.interval());
    let observer = Assertion::sees(u, i.clone());
    let left = Assertion::both(s.actor(Interval::One(s.word())), observer);
    triple(7, s.place, left, Assertion::sees(u, Interval::chop(i, s.settled())), &[])
}

fn released(s: &mut Setting) -> Lemma {
    let (u, i) = (s.thread(), s.interval());
    let j = s.untouched().interval(s.random, 1);
    let known = Assertion::both(Assertion::sees(u, i.clone()), s.actor(j.clone()));
    let left = Assertion::both(s.actor(Interval::One(s.word())), known);
    let behind = Interval::chop(Interval::all(Test::Unsync(s.word())), j);
    triple(8, s.place, left, Assertion::sees(u, Interval::chop(i, behind)), &[])
}

fn stable_test(s: &mut Setting) -> Lemma {
    let u = s.thread();
    let e = s.vocabulary().without_flags_of(s.word()).test(s.random, 2);
    let after = e.replace(&[Replacement { leaf: Value::Word(s.word()), by: s.written() }]);
    let right = Assertion::sees(u, Interval::All(e));
    let left = Assertion::both(right.clone(), Assertion::sees(u, Interval::All(after)));
    triple(9, s.place, left, right, &[])
}

fn seen_swap(s: &mut Setting, rule: u8) -> Lemma {
    let u = s.thread();
    let observer = Assertion::sees(u, s.last_uncovered());
    let left = Assertion::both(s.actor(s.last_uncovered()), observer);
    let right = Assertion::sees(u, Interval::chop(s.covered(), s.settled()));
    triple(rule, s.place, left, right, &[])
}

fn released_swap(s: &mut Setting) -> Lemma {
    let u = s.thread();
    let j = s.untouched().interval(s.random, 1);
    let observer = Assertion::sees(u, s.last_uncovered());
    let known = Assertion::both(observer, s.actor(j.clone()));
    let left = Assertion::both(s.actor(s.last_uncovered()), known);
    let behind = Interval::chop(Interval::all(Test::Unsync(s.word())), j);
    triple(13, s.place, left, Assertion::sees(u, Interval::chop(s.covered(), behind)), &[])
}

fn consequence(s: &mut Setting) -> Lemma {
    let middle = any(s);
    let (p, q) = middle.assertions();
    let (more, other) = (s.assertion(), s.assertion());
    let before = implies(20, Assertion::both(p.clone(), more), p.clone(), &[]);
    let after = implies(20, q.clone(), Assertion::either(q.clone(), other), &[]);
    around(&before, &middle, &after)
}
