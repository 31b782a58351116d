//! Instances of rule 50.

use super::{triples, Setting};
use reference::checker::rules::before_notes;
use reference::formula::replace::{Replace, Replacement};
use reference::formula::Value;
use reference::image::Note;
use reference::proof::{triple, Lemma};
use std::slice;

pub fn whole(s: &mut Setting) -> Lemma {
    let note = s.action.pair_note().expect("rule 50 is about pairs").clone();
    if s.random.chance(60) {
        let first = triples::any(s);
        if let Some(lemma) = named_after(&first, &note) {
            return lemma;
        }
    }
    noted(s, &note)
}

/// From any triple: the right side speaks of the register wherever the premise's has the note's formula. None where
/// the premise speaks of the register's old value.
fn named_after(first: &Lemma, note: &Note) -> Option<Lemma> {
    let (left, before) = first.assertions();
    let value = Value::clone(&note.value);
    let by = Value::Register(note.register).into();
    let after = before.replace(&[Replacement { leaf: value, by }]);
    let returns = before_notes(&after, slice::from_ref(note)) == *before;
    returns.then(|| triple(50, first.statement.place(), left.clone(), after, &[first]))
}

/// The access keeps all that does not speak of its word, and the note is an assignment.
fn noted(s: &mut Setting, note: &Note) -> Lemma {
    let after = s.untouched().assertion(s.random, 1);
    let before = before_notes(&after, slice::from_ref(note));
    let first = triple(1, s.place, before.clone(), before.clone(), &[]);
    triple(50, s.place, before, after, &[&first])
}
