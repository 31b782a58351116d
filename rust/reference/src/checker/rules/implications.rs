//! Rules 20 to 27: implications between assertions.

use super::inclusions::inclusion;
use super::rows::implies_by_rows;
use super::table::implies_by_table;
use super::triples::Sides;
use super::Fit;
use crate::formula::{Assertion, Interval, Test, Value};
use crate::image::{Header, Statement};
use std::rc::Rc;

/// The sides of a premise that is an implication.
pub fn implication(statement: &Statement) -> Option<Sides<'_>> {
    match statement {
        Statement::Implication { left, right } => Some((left, right)),
        _ => None,
    }
}

/// Whether an implication follows by the rule from these premises.
pub fn fits(
    rule: u8,
    left: &Rc<Assertion>,
    right: &Rc<Assertion>,
    premises: &[&Statement],
    header: &Header,
) -> Fit {
    let by_rows = |left: &Test, right: &Test| implies_by_rows(left, right, header.counts.range);
    match (rule, premises) {
        (20, premises) => rule_20((left, right), premises),
        (21, []) => by_rows(left.as_holds()?, right.as_holds()?),
        (22, [premise]) => rule_22(left, right, premise),
        (23, []) => by_rows(left.as_sees()?.1.as_all()?, right.as_holds()?),
        (24, []) => by_rows(left.as_holds()?, right.as_sees()?.1.as_all()?),
        (25, []) => rule_25(left, right),
        (26, []) => rule_26(left, right, header),
        (27, []) => rule_27(left, right, header),
        _ => None,
    }
}

/// 20 by truth table, 0 to 4 implications as premises.
fn rule_20(line: Sides, premises: &[&Statement]) -> Fit {
    let premises = premises.iter().map(|premise| implication(premise));
    implies_by_table(line, &premises.collect::<Option<Vec<Sides>>>()?)
}

/// 22 t sees I to t sees J, from I in J.
fn rule_22(left: &Assertion, right: &Assertion, premise: &Statement) -> Fit {
    let ((t, i), (seer, j)) = (left.as_sees()?, right.as_sees()?);
    Some(t == seer && inclusion(premise)? == (i, j))
}

/// 25 both(t sees I, t sees J) to t sees both(I, J).
fn rule_25(left: &Assertion, right: &Assertion) -> Fit {
    let (first, second) = left.as_both()?;
    let ((t, i), (seer, j)) = (first.as_sees()?, second.as_sees()?);
    let joined = Assertion::sees(t, Interval::both(i.clone(), j.clone()));
    Some(t == seer && *right == joined)
}

/// 26 start to t sees both(one x, [x = its start value]).
fn rule_26(left: &Assertion, right: &Assertion, header: &Header) -> Fit {
    let (t, interval) = right.as_sees()?;
    let Interval::One(word) = **interval.as_both()?.0 else {
        return None;
    };
    let value = header.start[usize::from(word) - 1];
    let initial = Interval::one_equal(word, Value::Constant(value));
    Some(*left == Assertion::Start && *right == Assertion::sees(t, initial))
}

/// 27 start to holds r = 0, for a register that starts at 0.
fn rule_27(left: &Assertion, right: &Assertion, header: &Header) -> Fit {
    let Test::Equal(register, zero) = right.as_holds()?.as_ref() else {
        return None;
    };
    let Value::Register(register) = **register else {
        return None;
    };
    let cleared = header.is_cleared(register) && **zero == Value::Constant(0);
    Some(*left == Assertion::Start && cleared)
}
