//! Code 26: what the line of a claim must say.
//!
//! Thread 2 spins at point 0 and says "false" at point 1; threads 1 and 3 have one point each.

use super::frame::action;
use crate::generate::harness;
use crate::vectors::Case;
use reference::assemble::Plan;
use reference::formula::parse::Counts;
use reference::formula::{Assertion, Interval, Test, Value};
use reference::image::{Header, Instruction, Meeting, Program};
use reference::proof::{implies, included, triple, Lemma};
use std::rc::Rc;

pub fn cases() -> Vec<Case> {
    [
        shown(),
        not_shown(),
        by_other_rules(),
        among_several(),
        after_obligations(),
        by_rows(),
        large(),
    ]
    .concat()
}

fn never() -> Assertion {
    Assertion::holds(Test::False)
}

fn truth() -> Assertion {
    Assertion::truth()
}

/// A branch to its own point that is always taken.
fn spin() -> Instruction {
    Instruction::Branch { test: Test::truth().into(), target: 0 }
}

/// Thread 1 says `first`, thread 2 `second` at its last point, which it does not reach, and thread 3 "true".
fn program(first: Assertion, second: Assertion) -> Program {
    let counts = Counts { threads: 3, words: 1, registers: 4, range: 8 };
    let header = Header::cleared(counts, vec![0], vec![1, 1, 1, 2]);
    let mut program = harness::program(header, vec![Vec::new(), vec![spin()], Vec::new()]);
    program.outline[0][0] = first.into();
    program.outline[1][1] = second.into();
    program
}

/// Thread 1 at point 0 and thread 2 at point 1.
const NEVER: Meeting = Meeting { thread: 1, point: 0, other_thread: 2, other_point: 1 };

fn turned(meeting: Meeting) -> Meeting {
    let Meeting { thread, point, other_thread, other_point } = meeting;
    Meeting { thread: other_thread, point: other_point, other_thread: thread, other_point: point }
}

/// All obligations met, and these claims.
fn plan(claims: Vec<(Meeting, Option<Lemma>)>) -> Plan {
    Plan { claims, ..harness::plan(program(truth(), never())) }
}

fn case(label: &str, meeting: Meeting, line: Option<Lemma>) -> Case {
    Case::new(label, plan(vec![(meeting, line)]).bytes())
}

/// "true" and "false" give "false".
fn ruled_out() -> Lemma {
    implies(20, Assertion::both(truth(), never()), never(), &[])
}

fn shown() -> Vec<Case> {
    let with_third = Meeting { thread: 2, point: 1, other_thread: 3, other_point: 0 };
    let higher = || Some(implies(20, Assertion::both(never(), truth()), never(), &[]));
    let unneeded = implies(21, truth(), truth(), &[]);
    let resting = implies(20, Assertion::both(truth(), never()), never(), &[&unneeded]);
    vec![
        case("accepted: claim of threads 1 and 2", NEVER, Some(ruled_out())),
        case("accepted: claim of threads 2 and 1", turned(NEVER), Some(ruled_out())),
        case("accepted: claim of threads 2 and 3", with_third, higher()),
        case("accepted: claim of threads 3 and 2", turned(with_third), higher()),
        case("accepted: claim whose line has a premise", NEVER, Some(resting)),
        case("26: threads 2 and 3, the higher first", with_third, Some(ruled_out())),
        case("26: threads 3 and 2, the higher first", turned(with_third), Some(ruled_out())),
    ]
}

/// Lines that are justified and conclude something else, and lines that are not justified.
fn not_shown() -> Vec<Case> {
    let by_20 = |left: Assertion, right: Assertion| Some(implies(20, left, right, &[]));
    let both = || Assertion::both(truth(), never());
    let other_false = Assertion::holds(Test::and(Test::False, Test::False));
    let twice = Assertion::holds(Test::negated(Test::negated(Test::False)));
    let more = Assertion::both(both(), truth());
    let bad = implies(22, truth(), never(), &[]);
    let resting = implies(20, both(), never(), &[&bad]);
    let kept = included(46, Interval::One(1), Interval::One(1), &[]);
    let reachable = Meeting { other_point: 0, ..NEVER };
    let joined = by_20(Assertion::both(truth(), truth()), never());
    let rows = [
        ("26: no line", NEVER, None),
        ("26: no line, threads turned", turned(NEVER), None),
        ("26: the higher thread first", NEVER, by_20(Assertion::both(never(), truth()), never())),
        ("26: one assertion alone", NEVER, by_20(never(), never())),
        (
            "26: the assertions joined by either",
            NEVER,
            by_20(Assertion::either(truth(), never()), never()),
        ),
        ("26: a third assertion", NEVER, by_20(more, never())),
        ("26: false and false", NEVER, by_20(both(), other_false)),
        ("26: not not false", NEVER, by_20(both(), twice)),
        ("26: both assertions for false", NEVER, by_20(both(), both())),
        ("26: from false to both", NEVER, by_20(never(), both())),
        ("26: something true", NEVER, by_20(both(), truth())),
        ("26: from start", NEVER, by_20(Assertion::both(Assertion::Start, never()), never())),
        ("26: a line that rests on an unjustified one", NEVER, Some(resting)),
        ("26: an inclusion", NEVER, Some(kept)),
        ("26: points that are reached", reachable, joined),
        ("26: points that are reached, another line", reachable, Some(ruled_out())),
    ];
    rows.into_iter().map(|(label, meeting, line)| case(label, meeting, line)).collect()
}

/// The right statement by rules that do not give it, and a triple with its sides.
fn by_other_rules() -> Vec<Case> {
    let mut cases = Vec::new();
    for rule in 21..=27 {
        let line = implies(rule, Assertion::both(truth(), never()), never(), &[]);
        cases.push(case(&format!("26: by rule {rule}"), NEVER, Some(line)));
    }
    let both = || Assertion::both(truth(), never());
    for (rule, operation) in [(2, 0), (1, 3), (16, 3), (2, 12), (50, 9)] {
        let mut program = program(truth(), never());
        program.threads[0].push(action(operation));
        program.outline[0].push(truth().into());
        let fact = implies(20, both(), never(), &[]);
        let same = implies(20, never(), never(), &[]);
        let first = triple(1, (1, 0), never(), never(), &[]);
        let line = match rule {
            16 => triple(16, (1, 0), both(), never(), &[&fact, &first, &same]),
            50 => triple(50, (1, 0), never(), never(), &[&first]),
            _ => triple(rule, (1, 0), both(), never(), &[]),
        };
        let plan = Plan { claims: vec![(NEVER, Some(line))], ..harness::plan(program) };
        let label = format!("26: a triple by rule {rule}, operation {operation}");
        cases.push(Case::new(label, plan.bytes()));
    }
    cases
}

/// The first claim that fails is named, wherever it stands.
fn among_several() -> Vec<Case> {
    let good = || (NEVER, Some(ruled_out()));
    let mut cases = Vec::new();
    for (count, bad) in [(2, 0), (2, 1), (3, 1), (16, 0), (16, 7), (16, 15)] {
        let mut claims = vec![good(); count];
        claims[bad] = (turned(NEVER), None);
        let label = format!("26: claim {} of {count} has no line", bad + 1);
        cases.push(Case::new(label, plan(claims).bytes()));
    }
    for count in [0, 1, 2, 16] {
        let claims = vec![good(); count];
        cases.push(Case::new(format!("accepted: a claim {count} times"), plan(claims).bytes()));
    }
    let wrong = (NEVER, Some(implies(25, Assertion::both(truth(), never()), never(), &[])));
    let claims = vec![good(), wrong.clone(), (turned(NEVER), None)];
    cases.push(Case::new("26: the second of three, and the third", plan(claims).bytes()));
    let claims = vec![wrong.clone(), wrong];
    cases.push(Case::new("26: the same claim twice", plan(claims).bytes()));
    cases
}

/// Each obligation fails before any claim does, and alone.
fn after_obligations() -> Vec<Case> {
    let mut cases = Vec::new();
    let count = plan(Vec::new()).obligations.len();
    for index in 0..count {
        for (claim, line) in [("fails", None), ("is shown", Some(ruled_out()))] {
            let mut without = plan(vec![(NEVER, line)]);
            without.obligations[index] = None;
            let label = format!("20: obligation {} has no line, the claim {claim}", index + 1);
            cases.push(Case::new(label, without.bytes()));
        }
    }
    let mut other = plan(vec![(NEVER, None)]);
    other.obligations[count - 1] = Some(ruled_out());
    cases.push(Case::new("21: the last obligation has the claim's line", other.bytes()));
    cases
}

/// What only rows find to be false.
fn by_rows() -> Vec<Case> {
    let is = |value: u8| Test::equal(Value::Register(1), Value::Constant(value));
    let (zero, one) = (Assertion::holds(is(0)), Assertion::holds(is(1)));
    let both = || Assertion::both(zero.clone(), one.clone());
    let rows = implies(21, Assertion::holds(Test::and(is(0), is(1))), never(), &[]);
    let mut cases = Vec::new();
    for (code, premises) in [("accepted", vec![&rows]), ("26", vec![])] {
        let line = implies(20, both(), never(), &premises);
        let claims = vec![(NEVER, Some(line))];
        let mut plan = Plan { claims, ..harness::plan(program(zero.clone(), one.clone())) };
        plan.obligations[0] = Some(implies(27, Assertion::Start, zero.clone(), &[]));
        let label = format!("{code}: r1 = 0 and r1 = 1, {} premises", premises.len());
        cases.push(Case::new(label, plan.bytes()));
    }
    cases
}

/// The assertions joined may be longer or deeper than any formula: nothing concludes from them.
fn large() -> Vec<Case> {
    let deep = |nesting: usize| (3..nesting).fold(truth(), |all, _| Assertion::both(truth(), all));
    let long = |length: usize| {
        let parts = vec![truth(); (length + 1) / 4];
        balanced(parts)
    };
    let mut cases = Vec::new();
    for (what, first, fits) in [
        ("nesting 15", deep(15), true),
        ("nesting 16", deep(16), false),
        ("251 bytes", long(251), true),
        ("255 bytes", long(255), false),
    ] {
        let joined = Assertion::both(first.clone(), never());
        let left = if fits { joined } else { Assertion::clone(&first) };
        let line = implies(20, left, never(), &[]);
        let claims = vec![(NEVER, Some(line))];
        let plan = Plan { claims, ..harness::plan(program(first, never())) };
        let code = if fits { "accepted" } else { "26" };
        let label = format!("{code}: a claim about an assertion of {what}");
        cases.push(Case::new(label, plan.bytes()));
    }
    cases
}

fn balanced(mut parts: Vec<Assertion>) -> Assertion {
    if parts.len() == 1 {
        return parts.remove(0);
    }
    let second = parts.split_off(parts.len() / 2);
    Assertion::both(Rc::new(balanced(parts)), Rc::new(balanced(second)))
}
