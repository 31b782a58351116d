//! A proof changed in one place.

use super::random::Random;
use reference::checker::limits;
use reference::checker::rules::{rules, Form};
use reference::formula::encode::Encode;
use reference::formula::parse::{parse, Counts};
use reference::formula::{Assertion, Formula, Interval};
use reference::image::Statement;
use reference::proof::{implies, included, Lemma, Proof};
use std::rc::Rc;

/// The proof with one change: a formula, the rule, the place or the premises.
pub fn changed(random: &mut Random, counts: Counts, lemma: &Lemma) -> Lemma {
    let mut new = Proof::clone(lemma);
    match random.below(10) {
        0..=2 => edit_side(random, counts, &mut new.statement, true),
        3..=5 => edit_side(random, counts, &mut new.statement, false),
        6 => new.rule = other_rule(random, new.rule),
        7 => edit_place(random, &mut new.statement),
        8 => edit_premises(random, &mut new.premises),
        _ => match random.below(new.premises.len().max(1)) {
            index if index < new.premises.len() => {
                new.premises[index] = changed(random, counts, &new.premises[index]);
            }
            _ => edit_premises(random, &mut new.premises),
        },
    }
    Rc::new(new)
}

/// Another rule with lines of the same form.
fn other_rule(random: &mut Random, rule: u8) -> u8 {
    let of_form = |other: &u8| *other != rule && Form::of_rule(*other) == Form::of_rule(rule);
    *random.pick(&rules().filter(of_form).collect::<Vec<u8>>())
}

fn edit_place(random: &mut Random, statement: &mut Statement) {
    if let Statement::Triple { thread, point, .. } = statement {
        if random.chance(50) {
            *thread = random.between(1, limits::THREADS);
        }
        *point = random.between(0, 3);
    }
}

fn edit_premises(random: &mut Random, premises: &mut Vec<Lemma>) {
    match (random.below(4), premises.len()) {
        (0, 2..) => premises.swap(0, 1),
        (1, 1..) => {
            premises.pop();
        }
        (2, 1..) => premises.push(premises[0].clone()),
        (3, 1..) => premises[0] = harmless(random),
        _ => premises.push(harmless(random)),
    }
}

/// A justified line that has little to do with any other.
fn harmless(random: &mut Random) -> Lemma {
    if random.chance(50) {
        implies(20, Assertion::truth(), Assertion::truth(), &[])
    } else {
        included(46, Interval::One(1), Interval::One(1), &[])
    }
}

fn edit_side(random: &mut Random, counts: Counts, statement: &mut Statement, on_left: bool) {
    match statement {
        Statement::Triple { left, right, .. } | Statement::Implication { left, right } => {
            let side = if on_left { left } else { right };
            if let Some(Formula::Assertion(new)) = edited(random, counts, &side.encode()) {
                *side = new;
            }
        }
        Statement::Inclusion { left, right } => {
            let side = if on_left { left } else { right };
            if let Some(Formula::Interval(new)) = edited(random, counts, &side.encode()) {
                *side = new;
            }
        }
    }
}

/// The formula with one byte changed, if one of some tries is a formula again.
pub fn edited(random: &mut Random, counts: Counts, bytes: &[u8]) -> Option<Formula> {
    let sort = parse(bytes, counts).ok()?.sort();
    for _ in 0..60 {
        let mut new = bytes.to_vec();
        let place = random.below(new.len());
        new[place] = random.between(0, 28);
        match parse(&new, counts) {
            Ok(formula) if new != bytes && formula.sort() == sort => return Some(formula),
            _ => {}
        }
    }
    None
}
