//! Claims: frames, numbers, and what their line must say.

use reference::assemble::Plan;
use reference::checker::{check, decode};
use reference::explore::{describe, explore, Bounds, Fault, Outcome};
use reference::formula::parse::Counts;
use reference::formula::{Assertion, Test, Value};
use reference::image::written::{image_bytes, Record};
use reference::image::{Header, Instruction, Meeting, Program};
use reference::proof::{consequence, implies, triple, Lemma};
use std::rc::Rc;

const CLAIM: u16 = 8;

fn is(register: u8, value: u8) -> Assertion {
    Assertion::holds(Test::equal(Value::Register(register), Value::Constant(value)))
}

/// Two threads without instructions that say different things of register 1, and a third.
fn program() -> Program {
    let counts = Counts { threads: 3, words: 1, registers: 1, range: 2 };
    let header = Header { marks: vec![0], ..Header::cleared(counts, vec![0], vec![1]) };
    let said = [is(1, 0), is(1, 1), Assertion::truth()];
    let outline = said.map(|assertion| vec![assertion.into()]).to_vec();
    Program { header, threads: vec![Vec::new(); 3], outline }
}

const MEETING: Meeting = Meeting { thread: 1, point: 0, other_thread: 2, other_point: 0 };

/// Both of these give "false", by rule 21 and a truth table.
fn contradiction(first: Assertion, second: Assertion) -> Lemma {
    let test = |assertion: &Assertion| assertion.as_holds().expect("a test").clone();
    let joined = Assertion::holds(Test::and(test(&first), test(&second)));
    let never = implies(21, joined, Assertion::holds(Test::False), &[]);
    implies(20, Assertion::both(first, second), Assertion::holds(Test::False), &[&never])
}

fn excluded() -> Lemma {
    contradiction(is(1, 0), is(1, 1))
}

/// Obligations that cannot be met; claims come after them.
fn plan(claims: Vec<(Meeting, Option<Lemma>)>) -> Plan {
    let start = |assertion: &Rc<Assertion>| implies(20, Assertion::Start, assertion.clone(), &[]);
    let program = program();
    let obligations = program.outline.iter().flatten().map(|said| Some(start(said))).collect();
    Plan { claims, ..Plan::new(program, obligations) }
}

/// A program whose first thread never gets to its last point, and all proofs of it. Line 1 is `ruled_out`.
fn excluding(claims: Vec<(Meeting, Option<Lemma>)>) -> Plan {
    let counts = Counts { threads: 2, words: 1, registers: 2, range: 8 };
    let header = Header::cleared(counts, vec![0], vec![1, 2]);
    let truth = Assertion::truth;
    let never = Assertion::holds(Test::False);
    let spin = Instruction::Branch { test: Test::truth().into(), target: 0 };
    let outline = vec![vec![truth().into(), never.clone().into()], vec![truth().into()]];
    let program = Program { header, threads: vec![vec![spin], Vec::new()], outline };
    let start = || Some(implies(20, Assertion::Start, truth(), &[]));
    let branch = |test: Test, after: Assertion| {
        Some(implies(20, Assertion::both(truth(), Assertion::holds(test)), after, &[]))
    };
    let test = Test::truth();
    let taken = branch(test.clone(), truth());
    let obligations = vec![start(), start(), taken, branch(Test::negated(test), never)];
    Plan { spare: vec![ruled_out()], claims, ..Plan::new(program, obligations) }
}

/// Thread 1 at its last point, where it says "false", and thread 2.
const NEVER: Meeting = Meeting { thread: 1, point: 1, other_thread: 2, other_point: 0 };

/// The line that rules it out, with thread 1's assertion first.
fn ruled_out() -> Lemma {
    let never = || Assertion::holds(Test::False);
    implies(20, Assertion::both(never(), Assertion::truth()), never(), &[])
}

fn verdict(plan: &Plan) -> String {
    check(&plan.bytes()).to_string()
}

fn swapped(meeting: Meeting) -> Meeting {
    let Meeting { thread, point, other_thread, other_point } = meeting;
    Meeting { thread: other_thread, point: other_point, other_thread: thread, other_point: point }
}

#[test]
fn a_claim_is_written_and_read_again() {
    let plan = excluding(vec![(NEVER, Some(ruled_out())), (swapped(NEVER), None)]);
    let last = plan.records().last().cloned().expect("a record");
    assert_eq!(last, Record::new(CLAIM, [2, 0, 1, 1, 0, 0]));
    let image = decode(&plan.bytes()).expect("well formed");
    let claims: Vec<Meeting> = image.claims.iter().map(|claim| claim.meeting).collect();
    assert_eq!(claims, [NEVER, swapped(NEVER)]);
    assert_eq!((image.claims[0].line, image.claims[1].line), (1, 0));
}

#[test]
fn a_claim_goes_by_its_line() {
    let shown = || Some(ruled_out());
    assert_eq!(verdict(&excluding(vec![])), "0 0 0 0 0 0 0 0 4");
    assert_eq!(verdict(&excluding(vec![(NEVER, shown())])), "0 0 0 0 0 0 0 0 4");
    // Whichever thread the record names first, the lower one's assertion comes first.
    assert_eq!(verdict(&excluding(vec![(swapped(NEVER), shown())])), "0 0 0 0 0 0 0 0 4");
    let twice = vec![(NEVER, shown()), (NEVER, shown())];
    assert_eq!(verdict(&excluding(twice)), "0 0 0 0 0 0 0 0 4");
}

#[test]
fn the_first_claim_that_fails_is_named() {
    let records = excluding(vec![]).records().len();
    let shown = || Some(ruled_out());
    let second = format!("26 {} 0 1 1 2 0 0 4", records + 2);
    assert_eq!(verdict(&excluding(vec![(NEVER, shown()), (NEVER, None)])), second);
    let first = format!("26 {} 0 2 0 1 1 0 4", records + 1);
    assert_eq!(verdict(&excluding(vec![(swapped(NEVER), None), (NEVER, None)])), first);
    // The line says nothing of thread 1's point 0.
    let other = Meeting { point: 0, ..NEVER };
    let another = format!("26 {} 0 1 0 2 0 1 4", records + 1);
    assert_eq!(verdict(&excluding(vec![(other, shown())])), another);
}

#[test]
fn claims_come_after_all_obligations() {
    let found = check(&plan(vec![(MEETING, None)]).bytes());
    assert_eq!((found.code, found.class), (22, 1));
}

#[test]
fn an_unjustified_line_shows_nothing() {
    let never = || Assertion::holds(Test::False);
    let wrong = implies(25, Assertion::both(never(), Assertion::truth()), never(), &[]);
    let found = check(&excluding(vec![(NEVER, Some(wrong))]).bytes());
    assert_eq!((found.code, found.line, found.count), (26, 5, 4));
    let higher_first = implies(20, Assertion::both(Assertion::truth(), never()), never(), &[]);
    assert_eq!(check(&excluding(vec![(NEVER, Some(higher_first))]).bytes()).code, 26);
}

/// The code if these bytes are the body of a claim, and whether its record is named.
fn body(bytes: &[u8]) -> (u16, bool) {
    let mut records = excluding(vec![(NEVER, Some(ruled_out()))]).records();
    let last = records.len();
    records[last - 1].body = bytes.to_vec();
    let verdict = check(&image_bytes(&records));
    (verdict.code, usize::from(verdict.record) == last)
}

#[test]
fn numbers_of_a_claim() {
    assert_eq!(body(&[1, 1, 2, 0, 1, 0]), (0, false));
    assert_eq!(body(&[1, 1, 2, 0, 1]), (5, true));
    assert_eq!(body(&[1, 1, 2, 0, 1, 0, 0]), (5, true));
    assert_eq!(body(&[]), (5, true));
    for wrong in [
        [0, 1, 2, 0, 1, 0], // no thread
        [3, 1, 2, 0, 1, 0],
        [1, 1, 0, 0, 1, 0],
        [1, 1, 3, 0, 1, 0],
        [1, 1, 1, 0, 1, 0], // the same one
        [1, 2, 2, 0, 1, 0], // no such point
        [1, 1, 2, 1, 1, 0],
        [1, 1, 2, 0, 5, 0], // no such line
    ] {
        assert_eq!(body(&wrong), (6, true), "{wrong:?}");
    }
    assert_eq!(body(&[1, 1, 2, 0, 0, 0]), (26, true));
}

#[test]
fn there_are_up_to_sixteen() {
    let claims = |count: usize| vec![(NEVER, Some(ruled_out())); count];
    assert_eq!(verdict(&excluding(claims(16))), "0 0 0 0 0 0 0 0 4");
    let records = excluding(claims(16)).records().len();
    assert_eq!(verdict(&excluding(claims(17))), format!("4 {} 0 0 0 0 0 0 0", records + 1));
}

#[test]
fn claims_stand_behind_the_obligations() {
    let records = excluding(vec![(NEVER, Some(ruled_out()))]).records();
    let count = records.len();
    let code = |records: &[Record]| {
        let verdict = check(&image_bytes(records));
        (verdict.code, usize::from(verdict.record))
    };
    let mut before = records.clone();
    before.swap(count - 1, count - 2);
    assert_eq!(code(&before), (4, count - 1));
    let mut alone = records.clone();
    alone.remove(count - 2);
    assert_eq!(code(&alone), (4, count - 1));
    let mut unknown = records.clone();
    unknown[count - 1].kind = 7;
    assert_eq!(code(&unknown), (4, count));
    unknown[count - 1].kind = 9;
    assert_eq!(code(&unknown), (4, count));
    let mut again = records.clone();
    again.push(records[count - 2].clone());
    assert_eq!(code(&again), (4, count + 1));
}

#[test]
fn a_run_that_breaks_a_claim_is_shown() {
    let bounds = Bounds { steps: 4, writes: 4, starts: 16, states: 100_000 };
    let plan = excluding(vec![]);
    assert_eq!(explore(&plan.program, &[NEVER], bounds).outcome, Outcome::Holds { all: true });
    let step = Instruction::assign(1, Value::Constant(1));
    let truth = Rc::new(Assertion::truth());
    let outline = vec![vec![truth.clone(), truth.clone()], vec![truth]];
    let program = Program { threads: vec![vec![step], Vec::new()], outline, ..plan.program };
    let Outcome::Breaks(broken) = explore(&program, &[NEVER], bounds).outcome else {
        panic!("thread 1 takes its step");
    };
    assert_eq!((broken.run.len(), broken.fault), (1, Fault::Claim(NEVER)));
    let said = "claimed never to happen: thread 1 at point 1, thread 2 at point 0";
    assert!(describe(&program, &broken).contains(said));
    // The step itself is well proved; only the claim is not.
    let kept = triple(2, (1, 0), Assertion::truth(), Assertion::truth(), &[]);
    let both = Assertion::both(Assertion::truth(), Assertion::truth());
    let start = || Some(implies(20, Assertion::Start, Assertion::truth(), &[]));
    let other = consequence(both, &kept, Assertion::truth());
    let obligations = vec![start(), start(), Some(kept), Some(other)];
    let plan = Plan { claims: vec![(NEVER, None)], ..Plan::new(program, obligations) };
    assert_eq!(check(&plan.bytes()).code, 26);
}

#[test]
fn a_contradiction_by_rows_serves() {
    let image = decode(&plan(vec![(MEETING, Some(excluded()))]).bytes()).expect("well formed");
    let line = usize::from(image.claims[0].line) - 1;
    assert!(reference::checker::rules::justified_lines(&image)[line]);
    assert_eq!(image.lines[line].statement, MEETING.wanted(&image.program));
}
