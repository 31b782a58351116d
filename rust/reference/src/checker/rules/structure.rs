//! Rules 1, 2 and 14 to 16: what is kept, assignment, and triples put together.

use super::implications::implication;
use super::triples::{Sides, Triple};
use super::Fit;
use crate::formula::atoms::Atoms;
use crate::formula::replace::{Replace, Replacement};
use crate::formula::{Assertion, Value};
use crate::image::{Instruction, Note, Statement};
use std::rc::Rc;

/// 1 load, store, swap, exchange, fetch-add: P kept (r absent; written x absent in any role).
pub fn rule_1(c: &Triple) -> Fit {
    Some(keeps(c.action, c.left.as_ref())? && c.left == c.right)
}

/// Whether rule 1 lets the instruction keep what this formula says.
pub fn keeps(action: &Instruction, kept: &impl Atoms) -> Fit {
    action.word()?;
    let set = action.result().is_some_and(|register| kept.has_register(register));
    let written = action.written_word().is_some_and(|word| kept.has_word(word));
    Some(!set && !written)
}

/// 2 assignments: left is right with each r replaced by its f, all at once.
pub fn rule_2(c: &Triple) -> Fit {
    Some(*c.left == before_notes(c.right, c.action.assignments()?))
}

/// What must be true before the notes are taken for this to be true after them.
pub fn before_notes(after: &Assertion, notes: &[Note]) -> Rc<Assertion> {
    let replaced =
        |note: &Note| Replacement { leaf: Value::Register(note.register), by: note.value.clone() };
    after.replace(&notes.iter().map(replaced).collect::<Vec<_>>())
}

/// 14 two triples joined by both.
pub fn rule_14(c: &Triple, p: Sides, q: Sides) -> Fit {
    let left = Assertion::both(p.0.clone(), q.0.clone());
    c.is(left, Assertion::both(p.1.clone(), q.1.clone()))
}

/// 15 two triples joined by either.
pub fn rule_15(c: &Triple, p: Sides, q: Sides) -> Fit {
    let left = Assertion::either(p.0.clone(), q.0.clone());
    c.is(left, Assertion::either(p.1.clone(), q.1.clone()))
}

/// 16 implication, triple, implication.
pub fn rule_16(c: &Triple, before: &Statement, p: Sides, after: &Statement) -> Fit {
    let (before, after) = (implication(before)?, implication(after)?);
    let chained = before.1 == p.0 && p.1 == after.0;
    Some(chained && c.left == before.0 && c.right == after.1)
}
