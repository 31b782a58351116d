//! A record put between others of its kind, with all numbers behind it moved.

use reference::checker::limits::{FORMULAS, LINES};
use reference::image::written::{Line, Written};

/// Puts a line where it gets this number; its premises are below it. False if there is no room.
pub fn insert_line(image: &mut Written, number: u16, line: Line) -> bool {
    if image.lines.len() >= LINES {
        return false;
    }
    let premises = image.lines.iter_mut().flat_map(|line| &mut line.premises);
    let claims = image.claims.iter_mut().map(|claim| &mut claim.line);
    move_up(image.obligations.iter_mut().chain(claims).chain(premises), number);
    image.lines.insert(usize::from(number) - 1, line);
    true
}

/// Puts a formula where it gets this number. False if there is no room.
pub fn insert_formula(image: &mut Written, number: u16, bytes: Vec<u8>) -> bool {
    if image.formulas.len() >= FORMULAS {
        return false;
    }
    move_up(named_formulas(image), number);
    image.formulas.insert(usize::from(number) - 1, bytes);
    true
}

fn move_up<'a>(numbers: impl Iterator<Item = &'a mut u16>, from: u16) {
    for number in numbers.filter(|number| **number >= from) {
        *number += 1;
    }
}

/// Every place where a formula is named by its number; 0 names none.
pub fn named_formulas(image: &mut Written) -> impl Iterator<Item = &mut u16> {
    let code = image.threads.iter_mut().flatten();
    let halves = code.flat_map(|one| [Some(&mut one.first), one.second.as_mut()]).flatten();
    let sides = image.lines.iter_mut().flat_map(|line| [&mut line.left, &mut line.right]);
    image.outline.iter_mut().chain(halves.map(|half| &mut half.formula)).chain(sides)
}
