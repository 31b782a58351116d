//! Premises: too few, too many, exchanged, unjustified, of another form, for
//! another instruction, saying something else.

use super::frame::{header, image, image_with_twin, operations, rich_instance, PLACE};
use crate::generate::harness;
use crate::vectors::Case;
use reference::checker::rules::rules;
use reference::formula::{Assertion, Interval, Value};
use reference::image::{Access, Instruction, Statement};
use reference::proof::{choice, consequence, implies, included, pair, triple, Lemma, Proof};
use std::rc::Rc;

pub fn cases() -> Vec<Case> {
    let mut cases = Vec::new();
    for rule in rules() {
        let operation = operations(rule)[0];
        let lemma = rich_instance(rule, operation);
        let mut variants = counts(&lemma);
        for index in 0..lemma.premises.len() {
            variants.extend(replaced(&lemma, index));
        }
        for (what, changed) in variants {
            let label = format!("rule {rule}: {what}");
            cases.push(Case::new(label, image_with_twin(operation, &changed)));
        }
    }
    cases.extend(of_another_thread());
    cases.extend(triples_for_implications());
    cases
}

/// The instruction at point 0 of a thread keeps "true".
fn kept_by(thread: u8) -> Lemma {
    triple(1, (thread, PLACE.1), Assertion::truth(), Assertion::truth(), &[])
}

/// Two threads with the same instruction at point 0: a premise is the other thread's triple, with the same formulas.
fn of_another_thread() -> Vec<Case> {
    let value = Value::Constant(5).into();
    let store: Instruction = Access::Store { word: 1, value, releasing: true }.into();
    let program = || harness::program(header(), vec![vec![store.clone()], vec![store.clone()]]);
    let own = kept_by(1);
    let lines = [
        (14, pair(&own, &own), vec![0, 1]),
        (15, choice(&own, &own), vec![0, 1]),
        (16, consequence(Assertion::truth(), &own, Assertion::truth()), vec![1]),
    ];
    let mut cases = Vec::new();
    for (rule, lemma, triples) in lines {
        let image = |lemma: &Lemma| harness::deciding(program(), lemma, 0).bytes();
        let label = format!("accepted: rule {rule}, the premises are the thread's own");
        cases.push(Case::new(label, image(&lemma)));
        for index in triples {
            let mut premises = lemma.premises.clone();
            premises[index] = kept_by(2);
            let label = format!("22: rule {rule}, premise {} is another thread's", index + 1);
            cases.push(Case::new(label, image(&with(&lemma, premises))));
        }
    }
    cases
}

/// Rule 16 with a justified triple that says what the implication in its place should.
fn triples_for_implications() -> Vec<Case> {
    let middle = kept_by(1);
    let lemma = consequence(Assertion::truth(), &middle, Assertion::truth());
    let instead = |index: usize| {
        let mut premises = lemma.premises.clone();
        premises[index] = middle.clone();
        let label = format!("22: rule 16, premise {} is a triple with its formulas", index + 1);
        Case::new(label, image(3, &with(&lemma, premises)))
    };
    vec![instead(0), instead(2)]
}

/// The line with other premises.
fn with(lemma: &Lemma, premises: Vec<Lemma>) -> Lemma {
    Rc::new(Proof { premises, ..Proof::clone(lemma) })
}

/// A justified implication.
fn implication() -> Lemma {
    implies(20, Assertion::truth(), Assertion::truth(), &[])
}

/// A justified inclusion.
fn inclusion() -> Lemma {
    included(46, Interval::One(1), Interval::One(1), &[])
}

type Variant = (String, Lemma);

/// Premises left out, added and exchanged.
fn counts(lemma: &Lemma) -> Vec<Variant> {
    let own = &lemma.premises;
    let mut variants = Vec::new();
    let mut longer = own.clone();
    for count in own.len() + 1..=4 {
        longer.push(own.last().cloned().unwrap_or_else(implication));
        variants.push((format!("{count} premises"), with(lemma, longer.clone())));
    }
    for index in 0..own.len() {
        let mut shorter = own.clone();
        shorter.remove(index);
        variants.push((format!("premise {} left out", index + 1), with(lemma, shorter)));
    }
    for index in 1..own.len() {
        let mut exchanged = own.clone();
        exchanged.swap(index - 1, index);
        let what = format!("premises {index} and {} exchanged", index + 1);
        variants.push((what, with(lemma, exchanged)));
    }
    variants
}

/// One premise replaced.
fn replaced(lemma: &Lemma, index: usize) -> Vec<Variant> {
    let premise = &lemma.premises[index];
    let mut variants = vec![
        ("is unjustified", unjustified(premise)),
        ("is an implication", implication()),
        ("is an inclusion", inclusion()),
    ];
    if let Statement::Triple { thread, left, right, .. } = &premise.statement {
        let elsewhere = Statement::Triple {
            thread: *thread,
            point: 1,
            left: left.clone(),
            right: right.clone(),
        };
        let moved = Proof { statement: elsewhere, ..Proof::clone(premise) };
        variants.push(("is for an equal instruction at point 1", Rc::new(moved)));
    } else {
        let own = triple(1, PLACE, Assertion::truth(), Assertion::truth(), &[]);
        variants.push(("is a triple", own));
    }
    variants.push(("says something else on the left", restated(premise, true)));
    variants.push(("says something else on the right", restated(premise, false)));
    let put = |line: Lemma| {
        let mut premises = lemma.premises.clone();
        premises[index] = line;
        with(lemma, premises)
    };
    let number = index + 1;
    variants
        .into_iter()
        .map(|(what, line)| (format!("premise {number} {what}"), put(line)))
        .collect()
}

/// The same statement by a rule that does not give it.
fn unjustified(premise: &Lemma) -> Lemma {
    let rule = match premise.statement {
        Statement::Triple { .. } => 13,
        Statement::Implication { .. } => 27,
        Statement::Inclusion { .. } => 44,
    };
    Rc::new(Proof { rule, ..Proof::clone(premise) })
}

/// A justified line that agrees with the premise on one side and not on the other.
fn restated(premise: &Lemma, on_left: bool) -> Lemma {
    match &premise.statement {
        Statement::Triple { left, right, .. } => {
            let (p, q) = (left.clone(), right.clone());
            if on_left {
                consequence(Assertion::both(p, Assertion::truth()), premise, q)
            } else {
                consequence(p, premise, Assertion::either(q, Assertion::truth()))
            }
        }
        Statement::Implication { left, right } => {
            let (p, q) = (left.clone(), right.clone());
            if on_left {
                implies(20, Assertion::both(q.clone(), p), q, &[])
            } else {
                implies(20, p.clone(), Assertion::either(p, q), &[])
            }
        }
        Statement::Inclusion { left, right } => {
            let (a, b) = (left.clone(), right.clone());
            if on_left {
                included(39, Interval::both(b.clone(), a), b, &[])
            } else {
                included(42, a.clone(), Interval::either(a, b), &[])
            }
        }
    }
}
