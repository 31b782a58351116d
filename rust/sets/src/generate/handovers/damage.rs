//! What may be wrong with a handover: the images, the table, the lines that it names.

use super::{Draft, Pair};
use crate::generate::image as any_image;
use crate::generate::random::Random;
use crate::generate::{harness, programs};
use reference::assemble::Plan;
use reference::formula::encode::Encode;
use reference::formula::{Assertion, Test};
use reference::image::written::Line;
use std::rc::Rc;

/// The handover with one thing wrong, or with two.
pub fn damaged(random: &mut Random, draft: &mut Draft) -> Pair {
    if random.chance(45) {
        name_other_lines(random, draft);
    }
    let mut pair = draft.pair();
    if random.chance(45) {
        damage_table(random, draft, &mut pair.table);
    }
    if random.chance(15) {
        damage_images(random, &mut pair);
    }
    pair
}

/// A plan whose header differs in one field. What it says is always true, so most are accepted.
pub fn unlike(random: &mut Random, old: &Plan) -> Plan {
    let mut header = old.program.header.clone();
    let mut threads = old.program.threads.clone();
    let register = random.below(header.owners.len().max(1));
    let word = random.below(header.start.len());
    let counts = &mut header.counts;
    match random.below(7) {
        0 => {
            counts.threads += 1;
            threads.push(Vec::new());
        }
        1 => {
            counts.words += 1;
            header.start.push(0);
        }
        2 => {
            counts.registers += 1;
            header.owners.push(1);
            header.marks.push(1);
        }
        3 => counts.range += 1,
        4 => header.start[word] = (header.start[word] + 1) % counts.range,
        5 if !header.owners.is_empty() => {
            header.owners[register] = 1 + header.owners[register] % counts.threads;
            // The old code may have another thread's register then.
            let code = (1..).zip(&mut threads);
            code.for_each(|(thread, code)| *code = programs::thread(random, &header, thread, 2));
        }
        _ if !header.marks.is_empty() => header.marks[register] ^= 1,
        _ => header.start.reverse(),
    }
    harness::plan(harness::program(header, threads))
}

/// One of the images is another, or refused.
fn damage_images(random: &mut Random, pair: &mut Pair) {
    let other = any_image(random.draw());
    let image = if random.chance(50) { &mut pair.old } else { &mut pair.new };
    match random.below(4) {
        0 => *image = other,
        1 => std::mem::swap(&mut pair.old, &mut pair.new),
        2 => {
            let place = random.below(image.len());
            image[place] ^= 1 << random.below(8);
        }
        _ => image.truncate(image.len() - 2),
    }
}

/// Some entries name lines that do not serve.
fn name_other_lines(random: &mut Random, draft: &mut Draft) {
    for _ in 0..1 + random.below(2) {
        let index = random.below(draft.entries.len().max(1));
        let Some(&entry) = draft.entries.get(index) else {
            return;
        };
        let [left, right] = draft.sides(entry.thread, entry.from, entry.to);
        let line = match random.below(8) {
            0 => draft.implication(random, &right, &left),
            1 => draft.implication(random, &left, &Assertion::both(right.clone(), right)),
            2 => draft.implication(random, &Assertion::both(left.clone(), left), &right),
            3 => draft.implication(random, &left, &Assertion::holds(Test::False)),
            4 => triple(random, draft, [left, right]),
            5 => unjustified(random, draft, [left, right]),
            _ => 1 + random.below(draft.new.lines.len()) as u16,
        };
        draft.entries[index].line = line;
    }
}

/// A triple with these sides, where there is an instruction for one; else any line.
fn triple(random: &mut Random, draft: &mut Draft, sides: [Rc<Assertion>; 2]) -> u16 {
    let code = (1..).zip(&draft.programs[1].threads);
    let places = code.flat_map(|(thread, code)| {
        let acting = (0..).zip(code).filter(|(_, instruction)| !instruction.is_branch());
        acting.map(move |(point, _)| (thread, point))
    });
    let places: Vec<(u8, u8)> = places.collect();
    if places.is_empty() {
        return 1 + random.below(draft.new.lines.len()) as u16;
    }
    let (thread, point) = *random.pick(&places);
    let [left, right] = sides.map(|side| draft.formula(random, side.encode()));
    let rule = *random.pick(&[1, 2]);
    draft.put(random, Line { rule, thread, point, left, right, premises: Vec::new() })
}

/// An implication with these sides by another rule, or on a premise that it cannot have.
fn unjustified(random: &mut Random, draft: &mut Draft, sides: [Rc<Assertion>; 2]) -> u16 {
    let [left, right] = sides.map(|side| draft.formula(random, side.encode()));
    let line = |rule, premises| Line { rule, thread: 0, point: 0, left, right, premises };
    if random.chance(50) {
        let rule = random.between(21, 27);
        return draft.put(random, line(rule, Vec::new()));
    }
    // Rule 26 concludes that a thread sees something, never that it does not.
    let false_one = draft.formula(random, vec![28, 8]);
    let start = draft.formula(random, vec![27]);
    let wrong = Line { left: start, right: false_one, ..line(26, Vec::new()) };
    let wrong = draft.put_last(wrong);
    draft.put_last(line(20, vec![wrong]))
}

/// Another length, or a number of an entry that is out of range or about another line.
fn damage_table(random: &mut Random, draft: &Draft, table: &mut Vec<u8>) {
    let whole = table.len();
    match random.below(12) {
        0 => table.truncate(random.below(whole + 1)),
        1 => table.truncate(whole.saturating_sub(1 + random.below(3))),
        2 => table.extend((0..1 + random.below(4)).map(|_| random.between(0, 2))),
        3 => table.insert(0, 0),
        _ => {
            damage_entry(random, draft, table);
            if random.chance(20) {
                damage_entry(random, draft, table);
            }
        }
    }
}

fn damage_entry(random: &mut Random, draft: &Draft, table: &mut [u8]) {
    // The last entry as often as all others: what is behind must be looked at too.
    let entries = draft.entries.len();
    if entries == 0 {
        return;
    }
    let index = if random.chance(50) { entries - 1 } else { random.below(entries) };
    let Some(entry) = table.get_mut(3 * index..3 * index + 3) else {
        return;
    };
    let points = draft.points(draft.entries[index].thread);
    let others = draft.programs[1].outline.iter().map(|points| points.len() as u8);
    let most = others.max().unwrap_or(points);
    let lines = draft.new.lines.len() as u16;
    let high = u16::from_le_bytes([entry[1], entry[2]]) | 0x100 << random.below(8);
    let line = match random.below(9) {
        0 => return entry[0] = points,
        1 => return entry[0] = most - 1,
        2 => return entry[0] = random.draw() as u8,
        3 => return entry.swap(1, 2),
        4 => 0,
        5 => lines + 1,
        6 => lines,
        7 => high,
        _ => 1 + random.below(usize::from(lines)) as u16,
    };
    entry[1..].copy_from_slice(&line.to_le_bytes());
}
