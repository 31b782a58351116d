//! Pairs (operations 9 to 11) and two assignments at once (12): lengths, codes, rules.

use reference::assemble::Plan;
use reference::checker::check;
use reference::checker::frames::THREAD;
use reference::formula::parse::Counts;
use reference::formula::{Assertion, Interval, Test, Value};
use reference::image::written::{image_bytes, instructions, Record};
use reference::image::{Access, Header, Instruction, Note, Program};
use reference::proof::{around, consequence, implies, pair, triple, Lemma};
use std::rc::Rc;

const PLACE: (u8, u8) = (1, 0);

fn is(register: u8, value: impl Into<Rc<Value>>) -> Assertion {
    Assertion::holds(Test::equal(Value::Register(register), value))
}

fn number(value: u8) -> Value {
    Value::Constant(value)
}

/// One word; registers 1 and 2 are thread 1's, 3 is thread 2's. Thread 1 has one instruction between these assertions.
fn program(action: Instruction, before: &Assertion, after: &Assertion) -> Program {
    let counts = Counts { threads: 2, words: 1, registers: 3, range: 8 };
    let header = Header::cleared(counts, vec![0], vec![1, 1, 2]);
    let [before, after] = [before, after].map(|side| Rc::new(side.clone()));
    let outline = vec![vec![before, after], vec![Assertion::truth().into()]];
    Program { header, threads: vec![vec![action], Vec::new()], outline }
}

/// The plan whose one instruction goes by this line.
fn plan(action: Instruction, line: &Lemma) -> Plan {
    let (before, after) = line.assertions();
    let start = |goal: &Assertion| Some(implies(20, Assertion::Start, goal.clone(), &[]));
    let program = program(action, before, after);
    let truth = Assertion::truth();
    let still = Assertion::both(truth.clone(), before.as_ref().clone());
    let kept = match program.threads[0][0].assignments() {
        Some(_) => consequence(still, &triple(2, PLACE, truth.clone(), truth.clone(), &[]), truth),
        None => {
            let first = triple(1, PLACE, truth.clone(), truth.clone(), &[]);
            let first = consequence(still.clone(), &first, truth.clone());
            match program.threads[0][0].is_pair() {
                true => triple(50, PLACE, still, truth, &[&first]),
                false => first,
            }
        }
    };
    let starts = [start(before), start(&Assertion::truth())];
    let obligations = starts.into_iter().chain([Some(line.clone()), Some(kept)]).collect();
    Plan::new(program, obligations)
}

/// The verdict if the instruction goes by this line.
fn verdict(action: &Instruction, line: &Lemma) -> String {
    check(&plan(action.clone(), line).bytes()).to_string()
}

const ACCEPTED: &str = "0 0 0 0 0 0 0 0 4";
const ANOTHER: &str = "21 0 2 1 0 0 0 2 2";
const UNJUSTIFIED: &str = "22 0 2 1 0 0 0";

fn store(value: Value) -> Access {
    Access::Store { word: 1, value: value.into(), releasing: false }
}

fn pairs() -> [Instruction; 3] {
    let note = || Note::new(1, number(2));
    let releasing = Access::Store { word: 1, value: number(3).into(), releasing: true };
    let swap = Access::Swap { word: 1, value: number(3).into() };
    [store(number(3)), releasing, swap].map(|access| Instruction::pair(access, note()))
}

fn trade() -> Instruction {
    let sum = Value::sum(Value::Register(1), number(1));
    Instruction::trade(Note::new(1, Value::Register(2)), Note::new(2, sum))
}

/// "true" to "true" by rule 1, for the first half.
fn kept() -> Lemma {
    triple(1, PLACE, Assertion::truth(), Assertion::truth(), &[])
}

/// "true" to the assertion by rule 50, from a line for the first half.
fn whole(after: Assertion, first: &Lemma) -> Lemma {
    triple(50, PLACE, Assertion::truth(), after, &[first])
}

/// "true" to a number being equal to itself, for the first half.
fn itself(value: u8) -> Lemma {
    let equal = Assertion::holds(Test::equal(number(value), number(value)));
    let [before, after] =
        [Assertion::truth(), equal].map(|right| implies(21, Assertion::truth(), right, &[]));
    around(&before, &kept(), &after)
}

#[test]
fn a_pair_is_written_and_read_again() {
    for (action, operation) in pairs().into_iter().chain([trade()]).zip([9, 10, 11, 12]) {
        let plan = plan(action.clone(), &kept());
        let thread = plan.records().into_iter().find(|record| record.kind == THREAD);
        let body = thread.expect("a thread").body;
        assert_eq!((body.len(), body[1], body[6]), (11, operation, 0));
        let image = reference::checker::decode(&plan.bytes()).expect("well formed");
        assert_eq!(image.program, plan.program);
    }
}

#[test]
fn lengths_are_walked() {
    let code = |bytes: &[u8]| instructions(bytes).map(|code| code.len());
    for operation in 0..=255 {
        let long = if matches!(operation, 9..=12) { 10 } else { 5 };
        let body = |length: usize| [&[2, operation][..], &vec![9; length - 1]].concat();
        assert_eq!(code(&body(long)), Some(1), "{operation}");
        assert_eq!(code(&body(long + 1)), None);
        assert_eq!(code(&body(long - 1)), None);
    }
    // Where a second half begins is not looked at, and no points count as one.
    assert_eq!(code(&[3, 9, 0, 0, 0, 0, 12, 0, 0, 0, 0, 0, 1, 2, 3, 4]), Some(2));
    assert_eq!(code(&[0]), Some(0));
    assert_eq!(code(&[]), None);
}

/// The verdict if one byte of the first instruction of thread 1 is another; fields count from 0 to 9.
fn with_byte(action: &Instruction, place: usize, byte: u8) -> String {
    let plan = plan(action.clone(), &whole(Assertion::truth(), &kept()));
    let mut records: Vec<Record> = plan.records();
    let thread = records.iter().position(|record| record.kind == THREAD).expect("a thread");
    records[thread].body[1 + place] = byte;
    let verdict = check(&image_bytes(&records));
    let named = usize::from(verdict.record) == thread + 1;
    format!("{}{}", verdict.code, if named { "" } else { " elsewhere" })
}

#[test]
fn numbers_of_both_halves() {
    for action in pairs() {
        for (place, byte) in [(1, 0), (1, 2), (2, 1), (3, 0), (5, 1), (5, 9), (6, 0), (6, 4)] {
            assert_eq!(with_byte(&action, place, byte), "6", "{place} {byte}");
        }
        assert_eq!(with_byte(&action, 7, 1), "6");
        assert_eq!(with_byte(&action, 8, 0), "6");
        assert_eq!(with_byte(&action, 9, 9), "6");
    }
    assert_eq!(with_byte(&trade(), 6, 1), "6"); // the same register
    for (place, byte) in [(1, 0), (1, 4), (2, 1), (3, 0), (5, 12), (6, 0), (7, 1), (8, 0)] {
        assert_eq!(with_byte(&trade(), place, byte), "6", "{place} {byte}");
    }
}

#[test]
fn sorts_and_owners_of_both_halves() {
    let mut actions = pairs().to_vec();
    actions.push(trade());
    for action in actions {
        let pair = action.is_pair();
        // Formula 3 is an assertion in these images.
        for place in [3, 8] {
            assert_eq!(with_byte(&action, place, 3), "8", "{action:?} {place}");
        }
        assert_eq!(with_byte(&action, 6, 3), "9");
        assert_eq!(with_byte(&action, 1, 3), if pair { "6" } else { "9" });
        assert_eq!(with_byte(&action, 0, 8), "5"); // ten bytes for 8
    }
    let foreign = Instruction::pair(store(Value::Register(3)), Note::new(1, number(0)));
    assert_eq!(verdict(&foreign, &kept()), "9 7 0 0 0 0 0 0 0");
    let foreign = Instruction::pair(store(number(0)), Note::new(1, Value::Register(3)));
    assert_eq!(verdict(&foreign, &kept()), "9 7 0 0 0 0 0 0 0");
    // A pair has no result register, so 23 never comes.
    let own = Instruction::pair(store(Value::Register(1)), Note::new(1, Value::Register(1)));
    assert_eq!(verdict(&own, &whole(Assertion::truth(), &kept())), ACCEPTED);
}

#[test]
fn rule_50_replaces_the_register() {
    for action in pairs() {
        assert_eq!(verdict(&action, &whole(is(1, number(2)), &itself(2))), ACCEPTED);
        let other = verdict(&action, &whole(is(1, number(3)), &itself(3)));
        assert!(other.starts_with(UNJUSTIFIED));
        assert_eq!(verdict(&action, &whole(Assertion::truth(), &kept())), ACCEPTED);
    }
}

#[test]
fn rule_50_asks_for_the_same_left_side_and_one_premise() {
    let action = &pairs()[0];
    let other = Assertion::holds(Test::negated(Test::negated(Test::truth())));
    let stronger = triple(1, PLACE, other.clone(), other, &[]);
    assert!(verdict(action, &whole(Assertion::truth(), &stronger)).starts_with(UNJUSTIFIED));
    let line = triple(50, PLACE, Assertion::truth(), Assertion::truth(), &[]);
    assert!(verdict(action, &line).starts_with(UNJUSTIFIED));
    let line = triple(50, PLACE, Assertion::truth(), Assertion::truth(), &[&kept(), &kept()]);
    assert!(verdict(action, &line).starts_with(UNJUSTIFIED));
    let fact = implies(20, Assertion::truth(), Assertion::truth(), &[]);
    assert!(verdict(action, &whole(Assertion::truth(), &fact)).starts_with(UNJUSTIFIED));
}

#[test]
fn only_rule_50_concludes_for_a_pair() {
    for action in pairs() {
        assert_eq!(verdict(&action, &kept()), ANOTHER);
        let unjustified = triple(3, PLACE, Assertion::truth(), Assertion::truth(), &[]);
        assert_eq!(verdict(&action, &unjustified), ANOTHER);
    }
}

#[test]
fn a_line_by_rule_50_serves_no_other() {
    let action = &pairs()[0];
    let first = whole(Assertion::truth(), &kept());
    let both = pair(&first, &kept());
    let again = whole(Assertion::truth(), &first);
    assert!(verdict(action, &again).starts_with(UNJUSTIFIED));
    let (before, after) = both.assertions();
    let line = triple(50, PLACE, before.clone(), after.clone(), &[&both]);
    assert!(verdict(action, &line).starts_with(UNJUSTIFIED));
    let both = pair(&kept(), &kept());
    let line = triple(50, PLACE, before.clone(), after.clone(), &[&both]);
    assert_eq!(verdict(action, &line), ACCEPTED);
}

#[test]
fn rule_50_is_for_pairs_alone() {
    let line = whole(Assertion::truth(), &kept());
    let alone: Instruction = store(number(3)).into();
    assert!(verdict(&alone, &line).starts_with(UNJUSTIFIED));
    assert_eq!(verdict(&alone, &kept()), ACCEPTED);
    let kept = triple(2, PLACE, Assertion::truth(), Assertion::truth(), &[]);
    let line = whole(Assertion::truth(), &kept);
    for assignment in [trade(), Instruction::assign(1, number(2))] {
        assert!(verdict(&assignment, &line).starts_with(UNJUSTIFIED));
        assert_eq!(verdict(&assignment, &kept), ACCEPTED);
    }
}

#[test]
fn a_pair_is_read_as_its_first_half() {
    let last = Assertion::sees(1, Interval::One(1));
    let settled = Assertion::sees(1, Interval::one_equal(1, number(3)));
    let by_6 = triple(6, PLACE, last.clone(), settled.clone(), &[]);
    let line = |first: &Lemma| triple(50, PLACE, last.clone(), settled.clone(), &[first]);
    let [relaxed, releasing, swap] = pairs();
    let justified = |action: &Instruction, line: &Lemma| {
        let spare = Plan { spare: vec![line.clone()], ..plan(action.clone(), &kept()) };
        let image = reference::checker::decode(&spare.bytes()).expect("well formed");
        reference::checker::rules::justified_lines(&image)[..line_count(line)].iter().all(|j| *j)
    };
    assert!(justified(&relaxed, &line(&by_6)));
    assert!(justified(&releasing, &line(&by_6)));
    assert!(!justified(&swap, &line(&by_6)));
    // The note's register is untouched by the first half, so rule 1 keeps it.
    let noted = triple(1, PLACE, is(1, number(0)), is(1, number(0)), &[]);
    assert!(justified(&swap, &noted));
    assert!(!justified(&trade(), &noted));
}

fn line_count(line: &Lemma) -> usize {
    1 + line.premises.iter().map(line_count).sum::<usize>()
}

#[test]
fn two_registers_trade_by_rule_2() {
    let action = Instruction::trade(
        Note::new(1, Value::Register(2)),
        Note::new(2, Value::sum(Value::Register(1), number(1))),
    );
    let less = |a: Value, b: Value| Assertion::holds(Test::less(a, b));
    let (r1, r2) = (Value::Register(1), Value::Register(2));
    let sum = Value::sum(r1.clone(), number(1));
    let after = less(r1.clone(), r2.clone());
    let fits = |before: Assertion| {
        let line = triple(2, PLACE, before, after.clone(), &[]);
        let spare = Plan { spare: vec![line], ..plan(action.clone(), &kept()) };
        let image = reference::checker::decode(&spare.bytes()).expect("well formed");
        reference::checker::rules::justified_lines(&image)[0]
    };
    assert!(fits(less(r2.clone(), sum.clone())));
    // One after the other, in either order.
    assert!(!fits(less(sum.clone(), sum)));
    assert!(!fits(less(r2.clone(), Value::sum(r2, number(1)))));
    assert!(!fits(after.clone()));
}
