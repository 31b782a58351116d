//! Which formulas are kept.

use super::{changed, tour, truth, TrimCase};
use crate::generate::clutter::insert::{insert_formula, insert_line, named_formulas};
use reference::image::written::{Line, Written};
use std::collections::BTreeSet;

pub fn cases() -> Vec<TrimCase> {
    [named_once(), unused(), named_twice()].concat()
}

/// Formulas that records name in one kind of place alone.
fn named_once() -> Vec<TrimCase> {
    let mut cases = Vec::new();
    for place in [Place::FirstHalf, Place::SecondHalf, Place::Outline, Place::Left, Place::Right] {
        for in_front in [true, false] {
            let side = if in_front { "in front" } else { "behind" };
            cases.push(changed(format!("twins {side}, named {} alone", place.name()), |image| {
                twins(image, place, in_front);
            }));
        }
    }
    cases
}

/// Where a formula is put in, in words and by its number.
fn spots() -> [(&'static str, u16); 3] {
    let last = tour().formulas.len() as u16;
    [("first", 1), ("in the middle", last / 2), ("behind all", last + 1)]
}

/// Formulas that nothing names, or a dead line.
fn unused() -> Vec<TrimCase> {
    let mut cases = Vec::new();
    for (label, at) in spots() {
        cases.push(changed(format!("unused formula: {label}"), |image| {
            insert_formula(image, at, vec![17, 1]);
        }));
        cases.push(changed(format!("formula that a dead line alone names: {label}"), |image| {
            insert_formula(image, at, vec![17, 1]);
            let dead = Line { rule: 46, left: at, right: at, ..truth(image) };
            insert_line(image, 1, dead);
        }));
    }
    cases
}

/// Two formulas with equal bytes, of which half of the places name one and half the other.
fn named_twice() -> Vec<TrimCase> {
    let mut cases = Vec::new();
    for (label, at) in spots() {
        cases.push(changed(format!("equal formulas, each named: {label}"), |image| {
            let number = truth(image).left;
            insert_formula(image, at, vec![28, 11, 8]);
            let number = if at <= number { number + 1 } else { number };
            let every_second = named_formulas(image).filter(|named| **named == number).step_by(2);
            every_second.for_each(|named| *named = at);
        }));
    }
    cases
}

/// Where records name a formula.
#[derive(Clone, Copy, Debug)]
enum Place {
    FirstHalf,
    SecondHalf,
    Outline,
    Left,
    Right,
}

impl Place {
    fn name(self) -> &'static str {
        match self {
            Place::FirstHalf => "by first halves",
            Place::SecondHalf => "by second halves",
            Place::Outline => "by the outline",
            Place::Left => "on the left",
            Place::Right => "on the right",
        }
    }
}

/// All numbers in places of one kind.
fn places(image: &mut Written, place: Place) -> Vec<&mut u16> {
    let code = image.threads.iter_mut().flatten();
    match place {
        Place::FirstHalf => code.map(|one| &mut one.first.formula).collect(),
        Place::SecondHalf => {
            code.filter_map(|one| one.second.as_mut()).map(|half| &mut half.formula).collect()
        }
        Place::Outline => image.outline.iter_mut().collect(),
        Place::Left => image.lines.iter_mut().map(|line| &mut line.left).collect(),
        Place::Right => image.lines.iter_mut().map(|line| &mut line.right).collect(),
    }
}

/// Gives each formula that is named in places of one kind a twin, which these places name instead.
fn twins(image: &mut Written, place: Place, in_front: bool) {
    let named: BTreeSet<u16> = places(image, place).into_iter().map(|number| *number).collect();
    for (before, old) in (0..).zip(named.into_iter().filter(|&number| number > 0)) {
        // Each twin in front has moved all others.
        let old = if in_front { old + before } else { old };
        let bytes = image.formulas[usize::from(old) - 1].clone();
        let at = if in_front { 1 } else { image.formulas.len() as u16 + 1 };
        insert_formula(image, at, bytes);
        let old = if in_front { old + 1 } else { old };
        places(image, place).into_iter().filter(|number| **number == old).for_each(|n| *n = at);
    }
}
