//! Which lines speak of a whole pair, and which serve no other: obligations at a pair's point, rule 50 where there is
//! no pair, lines that rest on rule 50.

use super::frame::{action, header, PLACE};
use crate::generate::harness;
use crate::generate::instances::ACTIONS;
use crate::vectors::Case;
use reference::assemble::Plan;
use reference::checker::obligations::{duties, Duty};
use reference::checker::rules::{rules, Form};
use reference::formula::{Assertion, Interval, Test};
use reference::proof::{around, choice, implies, included, pair, triple, Lemma, Proof};
use std::rc::Rc;

pub fn cases() -> Vec<Case> {
    [conclusions(), elsewhere(), premises()].concat()
}

const PAIRS: [u8; 3] = [9, 10, 11];

/// Thread 1 has the instruction, all assertions are "true" and all obligations are met.
fn plan(operation: u8) -> Plan {
    harness::plan(harness::program(header(), vec![vec![action(operation)], Vec::new()]))
}

/// The obligations about the instruction: of class 2 and of class 4.
fn own_duties(plan: &Plan) -> Vec<(usize, Duty)> {
    let acts = |duty: &Duty| matches!(duty, Duty::Next { .. } | Duty::Kept { .. });
    let list = duties(&plan.program.threads);
    list.into_iter().enumerate().filter(|(_, duty)| acts(duty)).collect()
}

fn with(plan: &Plan, index: usize, line: Lemma) -> Vec<u8> {
    let mut changed = plan.clone();
    changed.obligations[index] = Some(line);
    changed.bytes()
}

/// Lines with the sides that an obligation at a pair's point wants, by every rule for triples.
fn conclusions() -> Vec<Case> {
    let mut cases = Vec::new();
    for operation in PAIRS {
        let plan = plan(operation);
        for (index, duty) in own_duties(&plan) {
            let whole = plan.obligations[index].clone().expect("a line");
            let class = if matches!(duty, Duty::Next { .. }) { 2 } else { 4 };
            let place = format!("class {class}, operation {operation}");
            let first = whole.premises[0].clone();
            let label = format!("21: {place}, the first half's own line by rule {}", first.rule);
            cases.push(Case::new(label, with(&plan, index, first)));
            for rule in rules().filter(|&rule| Form::of_rule(rule) == Some(Form::Triple)) {
                let line = Rc::new(Proof { rule, premises: Vec::new(), ..Proof::clone(&whole) });
                let code = if rule == 50 { 22 } else { 21 };
                let label = format!("{code}: {place}, a line by rule {rule} without premises");
                cases.push(Case::new(label, with(&plan, index, line)));
            }
            let label = format!("22: {place}, a line by rule 50 that rests on one");
            cases.push(Case::new(label, with(&plan, index, on(&whole, &whole))));
            let (left, right) = whole.assertions();
            let more = Assertion::either(right.clone(), Assertion::truth());
            let other = triple(50, PLACE, left.clone(), more, &[]);
            let label = format!("21: {place}, rule 50 with another right side");
            cases.push(Case::new(label, with(&plan, index, other)));
        }
    }
    cases
}

/// Rule 50 where there is no pair: well formed, the sides are right, and unjustified.
fn elsewhere() -> Vec<Case> {
    let mut cases = Vec::new();
    for operation in ACTIONS.into_iter().filter(|operation| !PAIRS.contains(operation)) {
        let plan = plan(operation);
        for (index, duty) in own_duties(&plan) {
            let line = plan.obligations[index].clone().expect("a line");
            let (left, right) = line.assertions();
            let whole = triple(50, PLACE, left.clone(), right.clone(), &[&line]);
            let class = if matches!(duty, Duty::Next { .. }) { 2 } else { 4 };
            let label = format!("22: class {class}, rule 50 at operation {operation}");
            cases.push(Case::new(label, with(&plan, index, whole)));
        }
    }
    cases
}

/// "true" to "true" by rule 1, and by rule 50 from it.
fn kept() -> (Lemma, Lemma) {
    let first = triple(1, PLACE, Assertion::truth(), Assertion::truth(), &[]);
    let whole = triple(50, PLACE, Assertion::truth(), Assertion::truth(), &[&first]);
    (first, whole)
}

/// Lines that rest on rule 50, each beside the one that rests on the first half and is justified.
fn premises() -> Vec<Case> {
    let mut cases = Vec::new();
    for operation in PAIRS {
        let (first, whole) = kept();
        let fact = implies(20, Assertion::truth(), Assertion::truth(), &[]);
        let sees = |interval: Interval| Assertion::sees(1, interval);
        let skipped = Interval::chop(Interval::all(Test::Covered(1)), Interval::One(2));
        let own = triple(1, PLACE, sees(Interval::One(2)), sees(Interval::One(2)), &[]);
        let again = triple(50, PLACE, sees(Interval::One(2)), sees(Interval::One(2)), &[&own]);
        let behind = |premise: &Lemma| {
            triple(10, PLACE, sees(skipped.clone()), sees(Interval::One(2)), &[premise])
        };
        for (label, right, wrong) in [
            ("rule 14 on its left", pair(&first, &first), pair(&whole, &first)),
            ("rule 14 on its right", pair(&first, &first), pair(&first, &whole)),
            ("rule 15 on its left", choice(&first, &first), choice(&whole, &first)),
            ("rule 15 on its right", choice(&first, &first), choice(&first, &whole)),
            ("rule 16", around(&fact, &first, &fact), around(&fact, &whole, &fact)),
            ("rule 10", behind(&own), behind(&again)),
        ] {
            for (code, line) in [("accepted", right), ("22", wrong)] {
                let label = format!("{code}: {label} rests on rule 50, operation {operation}");
                cases.push(Case::new(label, deciding(operation, &line)));
            }
        }
        cases.extend(other_forms(operation, &whole));
    }
    cases
}

/// An implication and an inclusion that would be justified without the premise by rule 50.
fn other_forms(operation: u8, whole: &Lemma) -> Vec<Case> {
    let truth = Assertion::truth;
    let implication = implies(20, truth(), truth(), &[whole]);
    let inclusion = included(46, Interval::One(1), Interval::One(1), &[whole]);
    let chain = included(31, Interval::One(1), Interval::One(1), &[&inclusion, &inclusion]);
    [("an implication", implication), ("an inclusion", inclusion), ("a chain behind one", chain)]
        .into_iter()
        .map(|(name, line)| {
            let label = format!("22: {name} rests on rule 50, operation {operation}");
            Case::new(label, deciding(operation, &line))
        })
        .collect()
}

/// The line by rule 50 with another premise.
fn on(whole: &Lemma, premise: &Lemma) -> Lemma {
    Rc::new(Proof { premises: vec![premise.clone()], ..Proof::clone(whole) })
}

/// The image in which the line decides the first obligation that it can.
fn deciding(operation: u8, line: &Lemma) -> Vec<u8> {
    let program = harness::program(header(), vec![vec![action(operation)], Vec::new()]);
    harness::deciding(program, line, 0).bytes()
}
