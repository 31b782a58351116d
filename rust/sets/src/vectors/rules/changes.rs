//! Instances of each rule, and the same with one thing changed.

use super::frame::{header, image, image_for, instance, operations, rich_instance};
use crate::generate::instances::ACTIONS;
use crate::vectors::Case;
use reference::checker::rules::{rules, Form};
use reference::formula::encode::Encode;
use reference::formula::parse::{parse, Counts};
use reference::formula::Formula;
use reference::image::Statement;
use reference::proof::{Lemma, Proof};
use std::rc::Rc;

/// Instances of each rule under each of its operations.
pub fn instances() -> Vec<Case> {
    let mut cases = Vec::new();
    for rule in rules() {
        for &operation in operations(rule) {
            let rich = rich_instance(rule, operation);
            let label = format!("rule {rule}: instance, operation {operation}");
            cases.push(Case::new(label, image(operation, &rich)));
            for seed in 0..2 {
                let label = format!("rule {rule}: instance {seed}, operation {operation}");
                let lemma = instance(rule, operation, seed);
                cases.push(Case::new(label, image_for(operation, &lemma, seed as usize)));
            }
        }
    }
    cases
}

/// The same triple for an instruction with every other operation.
pub fn other_operations() -> Vec<Case> {
    let mut cases = Vec::new();
    for rule in rules().filter(|&rule| Form::of_rule(rule) == Some(Form::Triple)) {
        for &operation in operations(rule) {
            let lemma = rich_instance(rule, operation);
            for other in ACTIONS.into_iter().filter(|&other| other != operation) {
                let label = format!("rule {rule}: made for operation {operation}, is {other}");
                cases.push(Case::new(label, image(other, &lemma)));
            }
        }
    }
    cases
}

/// Each byte of the left and the right side changed in turn.
pub fn changed_sides() -> Vec<Case> {
    let mut cases = Vec::new();
    for rule in rules() {
        let operation = operations(rule)[0];
        let lemma = rich_instance(rule, operation);
        for (side, on_left) in [("left", true), ("right", false)] {
            let length = bytes_of_side(&lemma.statement, on_left).len();
            for place in 0..length {
                if let Some(changed) = with_byte_changed(&lemma, on_left, place) {
                    let label = format!("rule {rule}: {side} side changed at byte {place}");
                    cases.push(Case::new(label, image(operation, &changed)));
                }
            }
        }
    }
    cases
}

/// The same line under every other rule of its form.
pub fn other_rules() -> Vec<Case> {
    let mut cases = Vec::new();
    for rule in rules() {
        let operation = operations(rule)[0];
        let lemma = rich_instance(rule, operation);
        let same_form = |other: &u8| Form::of_rule(*other) == Form::of_rule(rule);
        for other in rules().filter(same_form).filter(|&other| other != rule) {
            let changed = Rc::new(Proof { rule: other, ..Proof::clone(&lemma) });
            let label = format!("rule {rule}: the line names rule {other}");
            cases.push(Case::new(label, image(operation, &changed)));
        }
    }
    cases
}

/// The prefix form of one side of a statement.
fn bytes_of_side(statement: &Statement, on_left: bool) -> Vec<u8> {
    match statement {
        Statement::Triple { left, right, .. } | Statement::Implication { left, right } => {
            if on_left { left } else { right }.encode()
        }
        Statement::Inclusion { left, right } => if on_left { left } else { right }.encode(),
    }
}

/// The statement with another formula of the same sort on one side.
fn with_side(statement: &Statement, on_left: bool, formula: Formula) -> Option<Statement> {
    let mut new = statement.clone();
    match (&mut new, formula) {
        (
            Statement::Triple { left, right, .. } | Statement::Implication { left, right },
            Formula::Assertion(tree),
        ) => *(if on_left { left } else { right }) = tree,
        (Statement::Inclusion { left, right }, Formula::Interval(tree)) => {
            *(if on_left { left } else { right }) = tree;
        }
        _ => return None,
    }
    Some(new)
}

/// The line with the first other byte at a place that leaves its formula well formed.
pub fn with_byte_changed(lemma: &Lemma, on_left: bool, place: usize) -> Option<Lemma> {
    let counts: Counts = header().counts;
    let bytes = bytes_of_side(&lemma.statement, on_left);
    (1..=28).find_map(|offset| {
        let mut changed = bytes.clone();
        changed[place] = (changed[place] + offset) % 29;
        let formula = parse(&changed, counts).ok()?;
        // `start` in a triple would be a malformed image and no test of a rule.
        let starts = changed.contains(&27) && !bytes.contains(&27);
        let statement = with_side(&lemma.statement, on_left, formula).filter(|_| !starts)?;
        Some(Rc::new(Proof { statement, ..Proof::clone(lemma) }))
    })
}
