//! Rule 50: from a pair's first half to the whole pair.

use super::structure::before_notes;
use super::triples::{Sides, Triple};
use super::Fit;
use std::slice;

/// 50 pair: P to Q, from P to Q with the note's register replaced by its formula.
pub fn rule_50(c: &Triple, premise: Sides) -> Fit {
    let note = c.action.pair_note()?;
    Some(c.left == premise.0 && before_notes(c.right, slice::from_ref(note)) == *premise.1)
}
