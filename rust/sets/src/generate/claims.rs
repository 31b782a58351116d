//! Claims: two threads are never at two points together.

use super::random::Random;
use super::{harness, mutate, programs};
use reference::assemble::Plan;
use reference::checker::rules::table::implies_by_table;
use reference::formula::{Assertion, Test, Value};
use reference::image::{Header, Instruction, Meeting, Program, Statement, Thread};
use reference::proof::{implies, Lemma};
use std::rc::Rc;

/// A plan with a thread that never gets to its last points, where it says something false, and claims about them.
pub fn excluding(random: &mut Random) -> Plan {
    let header = several_threads(random);
    let mut program = harness::program(header.clone(), Vec::new());
    let mut unreached = Vec::new();
    for thread in 1..=header.counts.threads {
        let points = random.between(2, 4);
        let mut code = programs::thread(random, &header, thread, points);
        let mut outline: Vec<Rc<Assertion>> =
            (0..=code.len()).map(|_| Rc::new(Assertion::truth())).collect();
        if thread == 1 || random.chance(40) {
            let last = random.between(0, points - 2);
            spin(&mut code, last);
            let never = Rc::new(falsehood(random));
            outline[usize::from(last) + 1..].fill(never);
            unreached.extend((last + 1..points).map(|point| (thread, point)));
        }
        program.threads.push(code);
        program.outline.push(outline);
    }
    let mut plan = harness::plan(program);
    for _ in 0..random.between(1, 3) {
        let place = *random.pick(&unreached);
        if let Some(meeting) = meeting(random, &plan.program, Some(place)) {
            plan.claims.push((meeting, Some(shown(&plan.program, &meeting))));
        }
    }
    plan
}

fn several_threads(random: &mut Random) -> Header {
    loop {
        let header = programs::header(random);
        if header.counts.threads > 1 {
            return header;
        }
    }
}

/// No instruction up to this point leads beyond it.
fn spin(code: &mut Thread, last: u8) {
    code[usize::from(last)] = Instruction::Branch { test: Test::truth().into(), target: last };
    for instruction in &mut code[..=usize::from(last)] {
        if let Instruction::Branch { target, .. } = instruction {
            *target = last.min(*target);
        }
    }
}

/// 0 = 1, which only rows find to be false.
fn unequal() -> Test {
    Test::equal(Value::Constant(0), Value::Constant(1))
}

fn falsehood(random: &mut Random) -> Assertion {
    let never = Assertion::holds(Test::False);
    match random.below(3) {
        0 => never,
        1 => Assertion::both(Assertion::truth(), never),
        _ => Assertion::holds(unequal()),
    }
}

/// Two points of different threads, one of them given; none if there is no other thread.
fn meeting(random: &mut Random, program: &Program, place: Option<(u8, u8)>) -> Option<Meeting> {
    let count = program.threads.len() as u8;
    let any_point = |random: &mut Random, thread: u8| {
        random.between(0, program.threads[usize::from(thread) - 1].len() as u8)
    };
    let first = random.between(1, count);
    let (thread, point) = place.unwrap_or_else(|| (first, any_point(random, first)));
    let others: Vec<u8> = (1..=count).filter(|&other| other != thread).collect();
    let other_thread = *others.get(random.below(others.len().max(1)))?;
    let other_point = any_point(random, other_thread);
    Some(if random.chance(50) {
        Meeting { thread, point, other_thread, other_point }
    } else {
        Meeting {
            thread: other_thread,
            point: other_point,
            other_thread: thread,
            other_point: point,
        }
    })
}

/// The line that rules the meeting out, justified if the assertions contradict each other.
fn shown(program: &Program, meeting: &Meeting) -> Lemma {
    let Statement::Implication { left, right } = meeting.wanted(program) else {
        panic!("a claim wants an implication");
    };
    if implies_by_table((&left, &right), &[]) == Some(true) {
        return implies(20, left, right, &[]);
    }
    let by_rows = implies(21, Assertion::holds(unequal()), right.clone(), &[]);
    implies(20, left, right, &[&by_rows])
}

/// Adds claims, most often few, of which some are not shown.
pub fn add(random: &mut Random, plan: &mut Plan) {
    let count = match random.below(20) {
        0 => 16,
        1 => 17,
        few => 1 + few % 3,
    };
    for _ in 0..count {
        let Some(meeting) = meeting(random, &plan.program, None) else {
            return;
        };
        let line = line(random, plan, &meeting);
        plan.claims.push((meeting, line));
    }
    if random.chance(30) {
        let again = plan.claims[0].clone();
        plan.claims = vec![again; plan.claims.len()];
    }
}

/// A line for a claim: right, nearly right or about something else.
fn line(random: &mut Random, plan: &Plan, meeting: &Meeting) -> Option<Lemma> {
    let right = shown(&plan.program, meeting);
    match random.below(10) {
        0 => None,
        1 => Some(other_order(&right)),
        2 => Some(mutate::changed(random, plan.program.header.counts, &right)),
        3 => plan.obligations[random.below(plan.obligations.len())].clone(),
        _ => Some(right),
    }
}

/// The line with the higher thread's assertion first.
fn other_order(right: &Lemma) -> Lemma {
    let (left, never) = right.assertions();
    let (a, b) = left.as_both().expect("two assertions joined");
    let premises: Vec<&Lemma> = right.premises.iter().collect();
    implies(20, Assertion::both(b.clone(), a.clone()), never.clone(), &premises)
}
