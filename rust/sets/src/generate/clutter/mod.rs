//! Images that trimming makes smaller: dead lines and chains of them, lines and formulas written twice, unused formulas,
//! premises that are not needed, lines on which a claim alone rests.

pub mod insert;

use super::image::plan;
use super::random::Random;
use super::{claims, image as any_image};
use crate::examples::message_passing;
use insert::{insert_formula, insert_line};
use reference::assemble::Plan;
use reference::checker::check;
use reference::checker::limits::{FORMULAS, LINES};
use reference::checker::rules::{Form, MOST_PREMISES};
use reference::image::written::{Line, Written};

/// So often an accepted image is sought.
const TRIES: usize = 6;

/// The image of a seed. Most are accepted; one in six may be any image.
pub fn image(seed: u64) -> Vec<u8> {
    let random = &mut Random::new(seed);
    if random.below(6) == 0 {
        return any_image(random.draw());
    }
    let mut image = accepted(random).written();
    let changes = match random.below(20) {
        0 => 0,
        1 => 40 + random.below(100),
        few => few,
    };
    for _ in 0..changes {
        change(random, &mut image);
    }
    if random.below(400) == 0 {
        fill(random, &mut image);
    }
    image.bytes()
}

/// A plan of an accepted image.
pub fn accepted(random: &mut Random) -> Plan {
    for _ in 0..TRIES {
        let plan = if random.chance(25) { claims::excluding(random) } else { plan(random) };
        if check(&plan.bytes()).code == 0 {
            return plan;
        }
    }
    message_passing()
}

/// One change, after which as many obligations and claims are met as before.
pub fn change(random: &mut Random, image: &mut Written) {
    match random.below(8) {
        0..=2 => dead_line(random, image),
        3 => dead_chain(random, image),
        4 => line_again(random, image),
        5 => premise_not_needed(random, image),
        6 => formula_again(random, image),
        _ => unused_formula(random, image),
    }
}

/// A number of a record, or of the place behind the last.
fn place(random: &mut Random, count: usize) -> u16 {
    1 + random.below(count + 1) as u16
}

/// The number of a record that is there.
fn number(random: &mut Random, count: usize) -> u16 {
    1 + random.below(count) as u16
}

fn line(image: &Written, number: u16) -> &Line {
    &image.lines[usize::from(number) - 1]
}

/// A line that nothing names, anywhere: one that is there with another right side or other premises.
fn dead_line(random: &mut Random, image: &mut Written) {
    let at = place(random, image.lines.len());
    let mut dead = any_line(random, image);
    let other = any_line(random, image);
    if random.chance(40) && Form::of_rule(dead.rule) == Form::of_rule(other.rule) {
        dead.right = other.right;
    }
    let lower = usize::from(at) - 1;
    let premises = random.below(MOST_PREMISES + 1).min(lower);
    dead.premises = (0..premises).map(|_| number(random, lower)).collect();
    insert_line(image, at, dead);
}

fn any_line(random: &mut Random, image: &Written) -> Line {
    line(image, number(random, image.lines.len())).clone()
}

/// Lines that nothing names, or each of which the next one names.
fn dead_chain(random: &mut Random, image: &mut Written) {
    for _ in 0..1 + random.below(5) {
        let at = place(random, image.lines.len());
        let below = at.checked_sub(1).filter(|&below| below > 0);
        let dead = Line { premises: below.into_iter().collect(), ..any_line(random, image) };
        insert_line(image, at, dead);
    }
}

/// A line written again behind itself; some of those that rest on it rest on its twin then.
fn line_again(random: &mut Random, image: &mut Written) {
    let old = number(random, image.lines.len());
    let twin = old + 1;
    if !insert_line(image, twin, line(image, old).clone()) {
        return;
    }
    let premises = image.lines.iter_mut().flat_map(|line| &mut line.premises);
    let claims = image.claims.iter_mut().map(|claim| &mut claim.line);
    for named in image.obligations.iter_mut().chain(claims).chain(premises) {
        if *named == old && random.chance(50) {
            *named = twin;
        }
    }
}

/// A line by truth table is written before itself, and lists its twin.
fn premise_not_needed(random: &mut Random, image: &mut Written) {
    let at = number(random, image.lines.len());
    let twin = line(image, at).clone();
    let fits = twin.rule == 20 && twin.premises.len() < MOST_PREMISES;
    if fits && insert_line(image, at, twin) {
        image.lines[usize::from(at)].premises.push(at);
    }
}

/// A formula written again; some of those that name it name its twin then.
fn formula_again(random: &mut Random, image: &mut Written) {
    let old = number(random, image.formulas.len());
    let bytes = image.formulas[usize::from(old) - 1].clone();
    let at = place(random, image.formulas.len());
    if !insert_formula(image, at, bytes) {
        return;
    }
    let old = if at <= old { old + 1 } else { old };
    for named in insert::named_formulas(image) {
        if *named == old && random.chance(50) {
            *named = at;
        }
    }
}

/// A formula that nothing names, or a dead line alone.
fn unused_formula(random: &mut Random, image: &mut Written) {
    let at = place(random, image.formulas.len());
    let word = random.between(1, image.header.counts.words);
    let interval: [&[u8]; 3] = [&[17, word], &[16, 15, word], &[18, 17, 1, 16, 14, word]];
    let bytes = random.pick(&interval).to_vec();
    if insert_formula(image, at, bytes) && random.chance(60) {
        let dead =
            Line { rule: 46, thread: 0, point: 0, left: at, right: at, premises: Vec::new() };
        insert_line(image, place(random, image.lines.len()), dead);
    }
}

/// As many lines as there may be, and one more now and then: dead ones behind the others. Formulas to the end too.
fn fill(random: &mut Random, image: &mut Written) {
    let again = any_line(random, image);
    let most = LINES + usize::from(random.chance(10));
    image.lines.resize(most.max(image.lines.len()), Line { premises: Vec::new(), ..again });
    if random.chance(50) {
        image.formulas.resize(FORMULAS, vec![17, 1]);
    }
}

#[cfg(test)]
mod tests;
