//! One image per seed.

use super::instances::{self, Setting, ACTIONS};
use super::random::Random;
use super::{claims, damage, harness, mutate, programs};
use crate::examples::message_passing;
use reference::assemble::Plan;
use reference::checker::frames::LINE;
use reference::checker::limits;
use reference::checker::rules::{rules, OF_PAIR};
use reference::formula::parse::Counts;
use reference::formula::{Assertion, Interval, Test, Value};
use reference::image::written::{image_bytes, Record};
use reference::image::{Header, Instruction, Statement, Thread};
use reference::proof::{implies, triple, Lemma, Proof};
use std::rc::Rc;

/// The image of a seed.
pub fn image(seed: u64) -> Vec<u8> {
    let random = &mut Random::new(seed);
    if random.chance(1) {
        return whole_image_fault(random);
    }
    let mut plan = plan(random);
    if random.chance(12) {
        edit_obligations(random, &mut plan);
    }
    if random.chance(10) {
        claims::add(random, &mut plan);
    }
    let mut records = plan.records();
    if random.below(1000) < 3 {
        repeat_a_line(random, &mut records);
    }
    if random.chance(35) {
        return damage::damaged(random, records);
    }
    image_bytes(&records)
}

/// A plan of any kind; about half of them are accepted.
pub fn plan(random: &mut Random) -> Plan {
    match random.below(20) {
        0 | 1 => changed_message_passing(random),
        2 => many_leaves(random),
        3 | 4 => claims::excluding(random),
        _ => rule_plan(random),
    }
}

/// Empty, or about as long as the library or the program reads.
fn whole_image_fault(random: &mut Random) -> Vec<u8> {
    match random.below(6) {
        0 | 1 => Vec::new(),
        2 => vec![random.between(0, 255); limits::PROGRAM_BYTES + random.below(3)],
        3 => vec![0; limits::IMAGE_BYTES + 1],
        _ => vec![random.between(0, 255); limits::IMAGE_BYTES + random.below(3)],
    }
}

/// About as many lines as there may be: the last one again and again. Lines by rows would take long.
fn repeat_a_line(random: &mut Random, records: &mut Vec<Record>) {
    let by_rows = |record: &Record| matches!(record.body[0], 21 | 23 | 24 | 30);
    let lines: Vec<usize> = (0..records.len()).filter(|&at| records[at].kind == LINE).collect();
    let Some(&again) = lines.iter().rev().find(|&&at| !by_rows(&records[at])) else {
        return;
    };
    let most = *random.pick(&[255, 1000, limits::LINES - 1, limits::LINES, limits::LINES + 1]);
    let more = vec![records[again].clone(); most.saturating_sub(lines.len())];
    let behind = lines[lines.len() - 1] + 1;
    records.splice(behind..behind, more);
}

/// A plan about one rule, justified or changed in one place, with spare lines.
fn rule_plan(random: &mut Random) -> Plan {
    let rule = any_rule(random);
    let (header, mut threads, place) = setting_for(random, rule);
    let mut lemma = make(random, &header, &threads, place, rule);
    if random.chance(50) {
        lemma = mutate::changed(random, header.counts, &lemma);
    } else if random.chance(12) {
        change_action(random, &header, &mut threads, place);
    } else if random.chance(20) && action_at(&threads, place).is_pair() {
        lemma = on_whole_pairs(&lemma);
    }
    let lines = if random.chance(2) { 100 + random.below(150) } else { random.below(3) };
    let spare = (0..lines).map(|_| spare(random, &header, &threads, place)).collect();
    let mut plan = match decidable(&threads, &lemma) {
        true => harness::deciding(harness::program(header, threads), &lemma, random.below(1000)),
        false => harness::plan(harness::program(header, threads)),
    };
    plan.spare = spare;
    if random.chance(30) {
        plan.spare.push(lemma);
    }
    plan
}

/// The line with premises by rule 50 in the place of triples: they say the same, but of the whole pair.
fn on_whole_pairs(lemma: &Lemma) -> Lemma {
    let whole = |premise: &Lemma| match &premise.statement {
        Statement::Triple { thread, point, left, right } => {
            triple(OF_PAIR, (*thread, *point), left.clone(), right.clone(), &[premise])
        }
        _ => premise.clone(),
    };
    let premises = lemma.premises.iter().map(whole).collect();
    Rc::new(Proof { premises, ..Proof::clone(lemma) })
}

fn any_rule(random: &mut Random) -> u8 {
    *random.pick(&rules().collect::<Vec<u8>>())
}

/// A program with a place for the rule: an instruction of a fitting operation.
fn setting_for(random: &mut Random, rule: u8) -> (Header, Vec<Thread>, (u8, u8)) {
    loop {
        let header = programs::header(random);
        let most = if random.chance(3) { limits::POINTS } else { 4 };
        let place = (random.between(1, header.counts.threads), random.between(0, most - 2));
        let mut threads: Vec<Thread> = (1..=header.counts.threads)
            .map(|thread| {
                let least = if thread == place.0 { place.1 + 2 } else { 1 };
                let points = random.between(least, most.max(least));
                programs::thread(random, &header, thread, points)
            })
            .collect();
        let code = &mut threads[usize::from(place.0) - 1];
        let points = code.len() as u8 + 1;
        let operations = instances::operations(rule);
        if let Some(action) = programs::instruction(random, &header, place.0, points, operations) {
            // The same instruction at another point is another instruction for the rules.
            if random.chance(30) && code.len() > 1 {
                let other = random.below(code.len());
                code[other] = action.clone();
            }
            code[usize::from(place.1)] = action;
            return (header, threads, place);
        }
    }
}

fn action_at(threads: &[Thread], place: (u8, u8)) -> &Instruction {
    &threads[usize::from(place.0) - 1][usize::from(place.1)]
}

fn make(
    random: &mut Random,
    header: &Header,
    threads: &[Thread],
    place: (u8, u8),
    rule: u8,
) -> Lemma {
    let action = action_at(threads, place);
    instances::instance(&mut Setting { random, header, place, action }, rule)
}

/// A line on which nothing rests, of a rule that needs no certain operation.
fn spare(random: &mut Random, header: &Header, threads: &[Thread], place: (u8, u8)) -> Lemma {
    let triples = if action_at(threads, place).is_branch() { 0 } else { 3 };
    let rule = match random.below(25 + triples) {
        choice @ 0..=7 => 20 + choice as u8,
        choice @ 8..=24 => 22 + choice as u8,
        choice => choice as u8 - 25 + 14,
    };
    let lemma = make(random, header, threads, place, rule);
    if random.chance(40) {
        return mutate::changed(random, header.counts, &lemma);
    }
    lemma
}

/// Puts another operation in the place of the lemma's instruction.
fn change_action(random: &mut Random, header: &Header, threads: &mut [Thread], place: (u8, u8)) {
    let code = &mut threads[usize::from(place.0) - 1];
    let points = code.len() as u8 + 1;
    if let Some(action) = programs::instruction(random, header, place.0, points, &ACTIONS) {
        code[usize::from(place.1)] = action;
    }
}

/// Whether some obligation is about the lemma's place.
fn decidable(threads: &[Thread], lemma: &Lemma) -> bool {
    match lemma.statement {
        Statement::Triple { thread, point, .. } => {
            let code = threads.get(usize::from(thread) - 1);
            let action = code.and_then(|code| code.get(usize::from(point)));
            action.is_some_and(|action| !action.is_branch())
        }
        _ => true,
    }
}

/// Message passing, mostly with one line or one instruction changed.
fn changed_message_passing(random: &mut Random) -> Plan {
    let mut plan = message_passing();
    let counts = plan.program.header.counts;
    match random.below(4) {
        0 => {}
        1 => {
            let thread = random.below(2);
            let point = random.below(plan.program.threads[thread].len());
            let place = (thread as u8 + 1, point as u8);
            let header = plan.program.header.clone();
            change_action(random, &header, &mut plan.program.threads, place);
        }
        _ => {
            let index = random.below(plan.obligations.len());
            let lemma = plan.obligations[index].take();
            plan.obligations[index] = lemma.map(|lemma| mutate::changed(random, counts, &lemma));
        }
    }
    plan
}

/// One obligation, by a truth table with about as many leaves as are allowed.
fn many_leaves(random: &mut Random) -> Plan {
    let counts = Counts { threads: 1, words: 2, registers: 1, range: 8 };
    let header = Header::cleared(counts, vec![0, 0], vec![1]);
    let leaves = random.between(7, 11);
    let leaf = |number: u8| {
        let constant = Value::Constant(number % 8);
        let word = Value::Word(1 + number / 8);
        Assertion::sees(1, Interval::all(Test::equal(word, constant)))
    };
    let many = (0..leaves).fold(Assertion::truth(), |all, number| {
        if number % 3 == 0 {
            Assertion::either(all, Assertion::either(leaf(number), leaf(number)))
        } else {
            Assertion::either(all, leaf(number))
        }
    });
    let mut plan = harness::plan(harness::program(header, vec![Vec::new()]));
    plan.obligations = vec![Some(implies(20, Assertion::Start, many.clone(), &[]))];
    plan.program.outline = vec![vec![many.into()]];
    plan
}

/// Takes a line from an obligation, or gives it the line of another or its own first premise, which says the same of a
/// pair's first half.
fn edit_obligations(random: &mut Random, plan: &mut Plan) {
    let count = plan.obligations.len();
    let index = random.below(count);
    plan.obligations[index] = match random.below(4) {
        0 => None,
        1 => plan.obligations[index].as_ref().and_then(|line| line.premises.first().cloned()),
        2 => plan.obligations[random.below(count)].clone(),
        _ => plan.spare.first().cloned(),
    };
}
