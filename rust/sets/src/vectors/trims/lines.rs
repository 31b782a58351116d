//! Which lines are kept.

use super::{changed, tour, truth, TrimCase};
use crate::generate::clutter::insert::insert_line;
use reference::image::written::{Line, Written};

pub fn cases() -> Vec<TrimCase> {
    [dead(), kept()].concat()
}

/// Lines on which nothing rests.
fn dead() -> Vec<TrimCase> {
    let last = tour().lines.len() as u16;
    let mut cases = vec![changed("as it is", |_| {})];
    for (label, at) in [("first", 1), ("in the middle", last / 2), ("behind all", last + 1)] {
        cases.push(changed(format!("dead line: {label}"), |image| {
            insert_line(image, at, truth(image));
        }));
        cases.push(changed(format!("dead line, unjustified: {label}"), |image| {
            // By a rule that wants a premise.
            insert_line(image, at, Line { rule: 22, ..truth(image) });
        }));
        for length in [2, 3, 8] {
            cases.push(changed(format!("dead chain of {length}: {label}"), |image| {
                chain(image, at, length);
            }));
        }
    }
    cases.push(changed("dead line on four that are kept", |image| {
        let kept = image.obligations[..4].to_vec();
        insert_line(image, last + 1, Line { premises: kept, ..truth(image) });
    }));
    cases.push(changed("equal lines, the second one dead", |image| {
        twin(image, image.obligations[0]);
    }));
    cases
}

/// Lines that are kept by one thing alone.
fn kept() -> Vec<TrimCase> {
    let unneeded_at = |place| {
        changed(format!("premise {place} of 4, not needed"), |image| unneeded(image, place))
    };
    let mut cases: Vec<TrimCase> = (1..=4).map(unneeded_at).collect();
    cases.push(changed("dead line between premise and line", |image| {
        unneeded(image, 1);
        insert_line(image, 2, truth(image));
    }));
    cases.push(changed("line that a claim alone names", |image| {
        image.claims[0].line = twin(image, image.claims[0].line);
    }));
    cases.push(changed("lines that the last claim alone rests on", |image| {
        let twin = twin(image, image.claims[1].line);
        image.claims[1].line = twin;
        insert_line(image, 1, truth(image));
        image.lines[usize::from(twin)].premises.push(1);
    }));
    for index in [0, 1, tour().obligations.len() / 2, tour().obligations.len() - 1] {
        cases.push(changed(format!("line that obligation {} alone names", index + 1), |image| {
            image.obligations[index] = twin(image, image.obligations[index]);
        }));
    }
    cases
}

/// Lines from this number on, of which each but the first names the one before it, and nothing else does.
pub fn chain(image: &mut Written, at: u16, length: u16) {
    for next in 0..length {
        let premises = (at + next).checked_sub(1).filter(|_| next > 0);
        insert_line(
            image,
            at + next,
            Line { premises: premises.into_iter().collect(), ..truth(image) },
        );
    }
}

/// The first line is a new one, and the first by truth table without premises lists it in this place of four.
fn unneeded(image: &mut Written, place: usize) {
    let bare = |line: &Line| line.rule == 20 && line.premises.is_empty();
    insert_line(image, 1, truth(image));
    insert_line(image, 2, truth(image));
    let index = 2 + image.lines[2..].iter().position(bare).expect("a line without premises");
    image.lines[index].premises = vec![2; 4];
    image.lines[index].premises[place - 1] = 1;
}

/// Writes a line again behind itself, where nothing names it; the answer is its number.
fn twin(image: &mut Written, line: u16) -> u16 {
    insert_line(image, line + 1, image.lines[usize::from(line) - 1].clone());
    line + 1
}
