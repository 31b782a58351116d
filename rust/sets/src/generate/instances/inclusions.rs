//! Instances of rules 30 to 46.

use super::tests_by_rows::pair;
use super::Setting;
use reference::formula::{Interval, Test};
use reference::proof::{included, Lemma};
use std::rc::Rc;

type Link = Rc<Interval>;

pub fn instance(s: &mut Setting, rule: u8) -> Lemma {
    match rule {
        30 => by_rows(s),
        31 => chain(s),
        32 => chop_of_two(s),
        33 | 34 => reassociated(s, rule),
        35 | 36 | 42 | 43 | 46 => {
            let interval = s.interval();
            grown(s, &interval, rule)
        }
        37 => doubled(s),
        38 => distributed(s),
        39 | 40 => {
            let interval = s.interval();
            shrunk(s, &interval, rule)
        }
        41 => both_from_two(s),
        44 => either_from_two(s),
        _ => joined_tests(s),
    }
}

/// Any inclusion without premises.
pub fn any(s: &mut Setting) -> Lemma {
    let rule = *s.random.pick(&[30, 33, 34, 35, 36, 37, 38, 39, 40, 42, 43, 45, 46]);
    instance(s, rule)
}

fn by_rows(s: &mut Setting) -> Lemma {
    let all = s.vocabulary();
    let (left, right) = pair(s, &all, &all, &all);
    included(30, Interval::All(left), Interval::All(right), &[])
}

/// The interval in one that is made from it: rules 35, 36, 42, 43 and 46.
fn grown(s: &mut Setting, interval: &Link, rule: u8) -> Lemma {
    let (known, new) = (interval.clone(), s.interval());
    let right = match rule {
        35 => Interval::Chop(new, known),
        36 => Interval::Chop(known, new),
        42 => Interval::Either(known, new),
        43 => Interval::Either(new, known),
        _ => interval.as_ref().clone(),
    };
    included(rule, interval.clone(), right, &[])
}

fn any_grown(s: &mut Setting, interval: &Link) -> Lemma {
    let rule = *s.random.pick(&[35, 36, 42, 43, 46]);
    grown(s, interval, rule)
}

/// One that is made from the interval in it: rules 39, 40 and 46.
fn shrunk(s: &mut Setting, interval: &Link, rule: u8) -> Lemma {
    let (known, new) = (interval.clone(), s.interval());
    let left = match rule {
        39 => Interval::Both(known, new),
        40 => Interval::Both(new, known),
        _ => interval.as_ref().clone(),
    };
    included(rule, left, interval.clone(), &[])
}

fn any_shrunk(s: &mut Setting, interval: &Link) -> Lemma {
    let rule = *s.random.pick(&[39, 40, 46]);
    shrunk(s, interval, rule)
}

fn chain(s: &mut Setting) -> Lemma {
    let first = any(s);
    let second = any_grown(s, first.intervals().1);
    let (left, right) = (first.intervals().0.clone(), second.intervals().1.clone());
    included(31, left, right, &[&first, &second])
}

fn chop_of_two(s: &mut Setting) -> Lemma {
    let (p, q) = (any(s), any(s));
    let ((a, c), (b, d)) = (p.intervals(), q.intervals());
    let left = Interval::chop(a.clone(), b.clone());
    included(32, left, Interval::chop(c.clone(), d.clone()), &[&p, &q])
}

fn reassociated(s: &mut Setting, rule: u8) -> Lemma {
    let (a, b, d) = (s.interval(), s.interval(), s.interval());
    let to_left = Interval::chop(Interval::chop(a.clone(), b.clone()), d.clone());
    let to_right = Interval::chop(a, Interval::chop(b, d));
    if rule == 33 {
        included(33, to_left, to_right, &[])
    } else {
        included(34, to_right, to_left, &[])
    }
}

fn doubled(s: &mut Setting) -> Lemma {
    let once: Link = Interval::All(s.vocabulary().test(s.random, 1)).into();
    included(37, Interval::chop(once.clone(), once.clone()), once, &[])
}

fn distributed(s: &mut Setting) -> Lemma {
    let (k, a, b) = (s.interval(), s.interval(), s.interval());
    let left = Interval::both(k.clone(), Interval::chop(a.clone(), b.clone()));
    let right = Interval::chop(Interval::both(k.clone(), a), Interval::both(k, b));
    included(38, left, right, &[])
}

fn both_from_two(s: &mut Setting) -> Lemma {
    let interval = s.interval();
    let (p, q) = (any_grown(s, &interval), any_grown(s, &interval));
    let right = Interval::both(p.intervals().1.clone(), q.intervals().1.clone());
    included(41, interval, right, &[&p, &q])
}

fn either_from_two(s: &mut Setting) -> Lemma {
    let interval = s.interval();
    let (p, q) = (any_shrunk(s, &interval), any_shrunk(s, &interval));
    let left = Interval::either(p.intervals().0.clone(), q.intervals().0.clone());
    included(44, left, interval, &[&p, &q])
}

fn joined_tests(s: &mut Setting) -> Lemma {
    let all = s.vocabulary();
    let (e, f) = (all.test(s.random, 1), all.test(s.random, 1));
    let left = Interval::both(Interval::All(e.clone()), Interval::All(f.clone()));
    included(45, left, Interval::all(Test::and(e, f)), &[])
}
