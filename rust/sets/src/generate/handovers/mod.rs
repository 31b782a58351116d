//! Two images with a table from the points of one to those of the other: handovers that are permitted, and the same with
//! something wrong.

mod damage;

use super::clutter::insert::insert_line;
use super::clutter::{accepted, change};
use super::random::Random;
use super::traces::{self, Call};
use super::{harness, programs};
use reference::assemble::Plan;
use reference::checker::limits;
use reference::checker::rules::table::implies_by_table;
use reference::formula::encode::Encode;
use reference::formula::{Assertion, Interval};
use reference::handover::{places, Handover};
use reference::image::written::{Line, Written};
use reference::image::{Header, Program};
use reference::replay::{run, start};
use reference::trim::trim;
use std::rc::Rc;

/// What a call is given.
#[derive(Clone, Debug, PartialEq, Eq)]
pub struct Pair {
    pub old: Vec<u8>,
    pub new: Vec<u8>,
    pub table: Vec<u8>,
}

/// The pair of a seed. Two in five are permitted.
pub fn pair(seed: u64) -> Pair {
    let random = &mut Random::new(seed);
    let old = accepted(random);
    let new = successor(random, &old);
    let mut draft = Draft::new(random, &old, &new);
    match random.chance(45) {
        true => draft.pair(),
        false => damage::damaged(random, &mut draft),
    }
}

/// What a replay across a handover is given besides images and table.
#[derive(Clone, Debug, PartialEq, Eq)]
pub struct Crossing {
    /// With the trace under the old code.
    pub call: Call,
    /// The trace under the new code.
    pub second: Vec<u8>,
}

/// A crossing for a permitted handover; without one, for one that is not permitted.
pub fn crossing(random: &mut Random, handover: Option<&Handover>) -> Crossing {
    let mut call = traces::call(random, handover.map(|handover| &handover.old));
    let Some(handover) = handover else {
        return Crossing { call, second: traces::noise(random, 8) };
    };
    if random.chance(60) {
        // All steps of the first trace are permitted, so that there is a second one.
        let most = random.below(20);
        call.trace = traces::permitted(random, &handover.old, &call.given, most).0;
    }
    let mut state = start(&handover.old.header, &call.given);
    run(&handover.old.threads, &mut state, &call.trace, usize::MAX);
    let second = traces::trace(random, &handover.new, handover.mapped(&state));
    Crossing { call, second }
}

/// A plan to go on with. Most have the header of the old one.
fn successor(random: &mut Random, old: &Plan) -> Plan {
    let header = old.program.header.clone();
    match random.below(20) {
        0..=6 => old.clone(),
        7..=11 => other_code(random, header),
        12..=15 => weaker(old),
        16..=17 => accepted(random),
        _ => damage::unlike(random, old),
    }
}

/// Other code, about which nothing is said.
fn other_code(random: &mut Random, header: Header) -> Plan {
    let most = if random.chance(5) { limits::POINTS } else { 5 };
    let threads = (1..=header.counts.threads).map(|thread| {
        let points = random.between(1, most);
        programs::thread(random, &header, thread, points)
    });
    let threads = threads.collect();
    harness::plan(harness::program(header, threads))
}

/// The same code, of which "what was said, or true" is said.
fn weaker(old: &Plan) -> Plan {
    let mut program = old.program.clone();
    for assertion in program.outline.iter_mut().flatten() {
        *assertion = Rc::new(Assertion::either(assertion.clone(), Assertion::truth()));
    }
    harness::plan(program)
}

/// A new point for each old one, and the line that the table names.
#[derive(Clone, Copy, Debug, PartialEq, Eq)]
struct Entry {
    thread: u8,
    from: u8,
    to: u8,
    line: u16,
}

/// A handover in the making.
struct Draft {
    old: Vec<u8>,
    /// What both images say, and the new one as it is written.
    programs: [Program; 2],
    new: Written,
    entries: Vec<Entry>,
}

impl Draft {
    /// The new image with clutter or without dead lines, and with a line for each old point.
    fn new(random: &mut Random, old: &Plan, new: &Plan) -> Draft {
        let mut written = new.written();
        if random.chance(30) {
            written = trim(written);
        }
        for _ in 0..random.below(4) {
            change(random, &mut written);
        }
        let programs = [old.program.clone(), new.program.clone()];
        let mut draft = Draft { old: old.bytes(), programs, new: written, entries: Vec::new() };
        for (thread, from) in places(&old.program) {
            if usize::from(thread) <= draft.programs[1].outline.len() {
                draft.enter(random, thread, from);
            }
        }
        draft
    }

    fn pair(&self) -> Pair {
        let table = self.entries.iter().flat_map(|entry| {
            let [low, high] = entry.line.to_le_bytes();
            [entry.to, low, high]
        });
        Pair { old: self.old.clone(), new: self.new.bytes(), table: table.collect() }
    }

    /// How many points a thread has in the new image.
    fn points(&self, thread: u8) -> u8 {
        self.programs[1].outline[usize::from(thread) - 1].len() as u8
    }

    fn sides(&self, thread: u8, from: u8, to: u8) -> [Rc<Assertion>; 2] {
        let [old, new] = &self.programs;
        [old.assertion(thread, from).clone(), new.assertion(thread, to).clone()]
    }

    /// An entry for an old point: most often with a new point whose assertion a truth table gives.
    fn enter(&mut self, random: &mut Random, thread: u8, from: u8) {
        let follows = |to: &u8| {
            let [left, right] = self.sides(thread, from, *to);
            implies_by_table((&left, &right), &[]) == Some(true)
        };
        let mut points: Vec<u8> = (0..self.points(thread)).filter(follows).collect();
        if points.is_empty() {
            points = (0..self.points(thread)).collect();
        }
        let to =
            if points.contains(&from) && random.chance(50) { from } else { *random.pick(&points) };
        let [left, right] = self.sides(thread, from, to);
        let line = self.implication(random, &left, &right);
        self.entries.push(Entry { thread, from, to, line });
    }

    /// A line for an implication: one by the same rule that is there, or a new one.
    fn implication(&mut self, random: &mut Random, left: &Assertion, right: &Assertion) -> u16 {
        let (rule, premises) = match (left, right) {
            (Assertion::Holds(_), Assertion::Holds(_)) if random.chance(50) => (21, Vec::new()),
            (Assertion::Sees(t, i), Assertion::Sees(u, j))
                if (t, i) == (u, j) && random.chance(50) =>
            {
                (22, vec![self.same(random, i)])
            }
            _ => (20, Vec::new()),
        };
        let [left, right] = [left.encode(), right.encode()].map(|side| self.formula(random, side));
        let line = Line { rule, thread: 0, point: 0, left, right, premises };
        let known = self.new.lines.iter().position(|other| *other == line);
        match known {
            Some(index) if random.chance(70) => index as u16 + 1,
            _ => self.put(random, line),
        }
    }

    /// An interval in itself, by rule 46.
    fn same(&mut self, random: &mut Random, interval: &Interval) -> u16 {
        let side = self.formula(random, interval.encode());
        self.put_last(Line {
            rule: 46,
            thread: 0,
            point: 0,
            left: side,
            right: side,
            premises: Vec::new(),
        })
    }

    /// The number of a formula with these bytes: one of those that are there, or a new one.
    fn formula(&mut self, random: &mut Random, bytes: Vec<u8>) -> u16 {
        let numbered = (1..).zip(&self.new.formulas);
        let known: Vec<u16> =
            numbered.filter(|(_, other)| **other == bytes).map(|(n, _)| n).collect();
        if !known.is_empty() && (random.chance(90) || self.new.formulas.len() >= limits::FORMULAS) {
            return *random.pick(&known);
        }
        self.new.formulas.push(bytes);
        self.new.formulas.len() as u16
    }

    /// Puts a line behind all others or, if it has no premise, anywhere.
    fn put(&mut self, random: &mut Random, line: Line) -> u16 {
        if random.chance(50) || !line.premises.is_empty() || self.new.lines.len() >= limits::LINES {
            return self.put_last(line);
        }
        let at = 1 + random.below(self.new.lines.len() + 1) as u16;
        insert_line(&mut self.new, at, line);
        for entry in self.entries.iter_mut().filter(|entry| entry.line >= at) {
            entry.line += 1;
        }
        at
    }

    fn put_last(&mut self, line: Line) -> u16 {
        self.new.lines.push(line);
        self.new.lines.len() as u16
    }
}

#[cfg(test)]
mod tests;
