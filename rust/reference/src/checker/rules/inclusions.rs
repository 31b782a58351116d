//! Rules 30 to 46: one interval contained in another.

use super::rows::implies_by_rows;
use super::Fit;
use crate::formula::{Interval, Test};
use crate::image::Statement;
use std::rc::Rc;

type Link = Rc<Interval>;
/// Left and right of a statement about intervals.
pub type Sides<'a> = (&'a Link, &'a Link);

/// The sides of a premise that is an inclusion.
pub fn inclusion(statement: &Statement) -> Option<Sides<'_>> {
    match statement {
        Statement::Inclusion { left, right } => Some((left, right)),
        _ => None,
    }
}

/// Whether an inclusion follows by the rule from these premises.
pub fn fits(rule: u8, left: &Link, right: &Link, premises: &[&Statement], range: u8) -> Fit {
    match premises {
        [] => axiom(rule, left, right, range),
        [p, q] => joined(rule, left, right, inclusion(p)?, inclusion(q)?),
        _ => None,
    }
}

/// The rules without premises.
fn axiom(rule: u8, left: &Link, right: &Link, range: u8) -> Fit {
    match rule {
        30 => implies_by_rows(left.as_all()?, right.as_all()?, range),
        33 => reassociated(left, right),
        34 => reassociated(right, left),
        35 => Some(left == right.as_chop()?.1),
        36 => Some(left == right.as_chop()?.0),
        37 => rule_37(left, right),
        38 => rule_38(left, right),
        39 => Some(right == left.as_both()?.0),
        40 => Some(right == left.as_both()?.1),
        42 => Some(left == right.as_either()?.0),
        43 => Some(left == right.as_either()?.1),
        45 => rule_45(left, right),
        46 => Some(left == right),
        _ => None,
    }
}

/// The rules with two premises.
fn joined(rule: u8, left: &Link, right: &Link, p: Sides, q: Sides) -> Fit {
    match rule {
        31 => Some(p.1 == q.0 && (left, right) == (p.0, q.1)),
        32 => Some(left.as_chop()? == (p.0, q.0) && right.as_chop()? == (p.1, q.1)),
        41 => Some(p.0 == left && q.0 == left && right.as_both()? == (p.1, q.1)),
        44 => Some(p.1 == right && q.1 == right && left.as_either()? == (p.0, q.0)),
        _ => None,
    }
}

/// 33, and 34 with the sides exchanged: (A;B);D and A;(B;D).
fn reassociated(to_left: &Interval, to_right: &Interval) -> Fit {
    let (ab, d) = to_left.as_chop()?;
    let (a, b) = ab.as_chop()?;
    Some(*to_right == Interval::chop(a.clone(), Interval::chop(b.clone(), d.clone())))
}

/// 37 [E];[E] in [E].
fn rule_37(left: &Interval, right: &Link) -> Fit {
    right.as_all()?;
    Some(left.as_chop()? == (right, right))
}

/// 38 both(K, A;B) in both(K, A);both(K, B).
fn rule_38(left: &Interval, right: &Interval) -> Fit {
    let (k, chop) = left.as_both()?;
    let (a, b) = chop.as_chop()?;
    let first = Interval::both(k.clone(), a.clone());
    Some(*right == Interval::chop(first, Interval::both(k.clone(), b.clone())))
}

/// 45 both([E], [F]) in [E and F].
fn rule_45(left: &Interval, right: &Interval) -> Fit {
    let (e, f) = left.as_both()?;
    let conjunction = Test::and(e.as_all()?.clone(), f.as_all()?.clone());
    Some(*right == Interval::all(conjunction))
}
