//! 4,096 rows and 10 leaves, and one more.

use crate::generate::harness;
use crate::vectors::Case;
use reference::formula::parse::Counts;
use reference::formula::{Assertion, Interval, Test, Value};
use reference::image::{Access, Header, Instruction};
use reference::proof::{implies, included, Lemma};
use std::rc::Rc;

pub fn cases() -> Vec<Case> {
    let mut cases = rows();
    cases.extend(rows_split_over_sides());
    cases.extend(leaves());
    cases.extend(leaves_of_premises());
    cases.extend(last_names());
    cases
}

/// Rules 26 and 27 at the last word and the last register; each word starts at another value.
fn last_names() -> Vec<Case> {
    let mut header = header(8);
    header.start = (0..8).collect();
    header.marks[14] = 0;
    let image = |lemma: &Lemma| {
        harness::deciding(harness::program(header.clone(), vec![Vec::new()]), lemma, 0).bytes()
    };
    let starts = |word: u8, value: u8| {
        let test = Test::equal(Value::Word(word), Value::Constant(value));
        let sees = Assertion::sees(1, Interval::both(Interval::One(word), Interval::all(test)));
        implies(26, Assertion::Start, sees, &[])
    };
    let cleared = |register: u8| {
        let test = Test::equal(Value::Register(register), Value::Constant(0));
        implies(27, Assertion::Start, Assertion::holds(test), &[])
    };
    let set = Instruction::assign(16, Value::Register(15));
    let load = Access::Load { register: 16, word: 8, acquiring: true }.into();
    let named = harness::plan(harness::program(header.clone(), vec![vec![set, load]]));
    vec![
        Case::new("accepted: register 16 set, and loaded from word 8", named.bytes()),
        Case::new("accepted: rule 26 at word 8", image(&starts(8, 7))),
        Case::new("22: rule 26 at word 8, the value of word 7", image(&starts(8, 6))),
        Case::new("accepted: rule 27 at register 16", image(&cleared(16))),
        Case::new("22: rule 27 at register 15, which starts anywhere", image(&cleared(15))),
    ]
}

/// One thread, one point, every name.
fn header(range: u8) -> Header {
    let counts = Counts { threads: 1, words: 8, registers: 16, range };
    Header::cleared(counts, vec![0; 8], vec![1; 16])
}

fn case(label: String, lemma: &Lemma) -> Case {
    case_of_range(8, label, lemma)
}

/// The image of this range in which the lemma decides the obligation.
pub fn case_of_range(range: u8, label: String, lemma: &Lemma) -> Case {
    let program = harness::program(header(range), vec![Vec::new()]);
    Case::new(label, harness::deciding(program, lemma, 0).bytes())
}

/// A test over so many registers, words, unsync and cov flags.
pub fn over(registers: u8, words: u8, unsync: u8, covered: u8) -> Test {
    let zero = || Value::Constant(0);
    let tests = (1..=registers)
        .map(|number| Test::equal(Value::Register(number), zero()))
        .chain((1..=words).map(|number| Test::equal(Value::Word(number), zero())))
        .chain((1..=unsync).map(Test::Unsync))
        .chain((1..=covered).map(Test::Covered));
    // Balanced, so that many names do not nest too deeply.
    balanced(tests.collect())
}

fn balanced(mut tests: Vec<Test>) -> Test {
    match tests.len() {
        0 => Test::False,
        1 => tests.remove(0),
        count => {
            let second = tests.split_off(count / 2);
            Test::or(balanced(tests), balanced(second))
        }
    }
}

/// Numbers of registers, words, unsync and cov flags.
const SIZES: [(u8, u8, u8, u8); 17] = [
    (4, 0, 0, 0),
    (5, 0, 0, 0),
    (16, 0, 0, 0),
    (0, 4, 0, 0),
    (0, 5, 0, 0),
    (2, 2, 0, 0),
    (2, 3, 0, 0),
    (4, 0, 1, 0),
    (0, 4, 0, 1),
    (3, 0, 3, 0),
    (0, 3, 2, 1),
    (2, 1, 2, 2),
    (0, 0, 8, 4),
    (0, 0, 8, 5),
    (0, 0, 4, 8),
    (0, 0, 8, 8),
    (16, 8, 8, 8),
];

fn rows() -> Vec<Case> {
    let mut cases = Vec::new();
    for (registers, words, unsync, covered) in SIZES {
        let test = Rc::new(over(registers, words, unsync, covered));
        let size = format!("{registers} registers, {words} words, {unsync} unsync, {covered} cov");
        let seen = || Assertion::sees(1, Interval::All(test.clone()));
        let all = || Interval::All(test.clone());
        cases.push(case(format!("rule 30: {size}"), &included(30, all(), all(), &[])));
        if words + unsync + covered == 0 {
            let held = || Assertion::Holds(test.clone());
            cases.push(case(format!("rule 21: {size}"), &implies(21, held(), held(), &[])));
            cases.push(case(format!("rule 23: {size}"), &implies(23, seen(), held(), &[])));
            cases.push(case(format!("rule 24: {size}"), &implies(24, held(), seen(), &[])));
        } else {
            let (truth, never) = (Assertion::truth(), Assertion::holds(Test::False));
            cases.push(case(format!("rule 23: {size}, to true"), &implies(23, seen(), truth, &[])));
            cases.push(case(format!("rule 24: false to {size}"), &implies(24, never, seen(), &[])));
        }
    }
    cases
}

/// The names of both sides count together, each once.
fn rows_split_over_sides() -> Vec<Case> {
    let equal = |a: Value, b: Value| Test::equal(a, b);
    let register = Value::Register;
    let word = Value::Word;
    let left = || Interval::all(equal(register(1), register(2)));
    let truth = |test: Test| Interval::all(Test::or(Test::truth(), test));
    let sides = [
        ("4 names, two on each side", truth(equal(register(3), register(4)))),
        ("3 names, one on both sides", truth(equal(register(2), register(4)))),
        ("4 names, registers and words", truth(equal(word(1), word(2)))),
        ("5 names over both sides", truth(Test::less(Value::sum(word(1), word(2)), word(3)))),
        (
            "4 names and a flag over both sides",
            truth(Test::and(equal(word(1), word(2)), Test::Unsync(1))),
        ),
        (
            "3 names and 3 flags over both sides",
            truth(Test::and(
                Test::and(Test::Unsync(1), Test::Covered(1)),
                Test::and(Test::Unsync(2), equal(word(1), word(1))),
            )),
        ),
        (
            "3 names and 4 flags over both sides",
            truth(Test::and(
                Test::and(Test::Unsync(1), Test::Covered(1)),
                Test::and(Test::or(Test::Unsync(2), Test::Covered(3)), equal(word(1), word(1))),
            )),
        ),
    ];
    sides
        .map(|(label, right)| case(format!("rule 30: {label}"), &included(30, left(), right, &[])))
        .into()
}

/// A leaf of the truth table, by number.
fn leaf(number: u8) -> Assertion {
    match number % 3 {
        0 => Assertion::holds(Test::equal(Value::Register(number + 1), Value::Constant(0))),
        1 => Assertion::holds(Test::less(Value::Register(number + 1), Value::Constant(3))),
        _ => Assertion::sees(
            1,
            Interval::all(Test::equal(Value::Word(1), Value::Constant(number % 8))),
        ),
    }
}

fn many(count: u8) -> Assertion {
    (1..count).fold(leaf(0), |all, number| Assertion::both(all, leaf(number)))
}

/// start to either(true, many leaves): start is a leaf too.
fn leaves() -> Vec<Case> {
    let mut cases = Vec::new();
    for count in [8, 9, 10, 11] {
        let right = Assertion::either(Assertion::truth(), many(count));
        cases.push(start_gives(format!("rule 20: start and {count} leaves"), right));
        let twice =
            Assertion::either(many(count), Assertion::either(Assertion::truth(), many(count)));
        cases.push(start_gives(format!("rule 20: start and {count} leaves, each twice"), twice));
    }
    cases
}

/// The image whose only obligation is that start gives the assertion.
fn start_gives(label: String, right: Assertion) -> Case {
    with_premises(label, right, &[])
}

fn with_premises(label: String, right: Assertion, premises: &[&Lemma]) -> Case {
    let mut plan = harness::plan(harness::program(header(8), vec![Vec::new()]));
    plan.obligations = vec![Some(implies(20, Assertion::Start, right.clone(), premises))];
    plan.program.outline = vec![vec![right.into()]];
    Case::new(label, plan.bytes())
}

/// Leaves that occur in premises only count too.
fn leaves_of_premises() -> Vec<Case> {
    let mut cases = Vec::new();
    for count in [8, 9, 10] {
        let premise = implies(20, many(count), leaf(0), &[]);
        let label = format!("rule 20: start and {count} leaves of a premise");
        cases.push(with_premises(label, Assertion::truth(), &[&premise]));
        let right = Assertion::either(Assertion::truth(), many(count / 2));
        let label = format!("rule 20: start, {count} leaves of a premise, some of the line");
        cases.push(with_premises(label, right, &[&premise, &premise]));
    }
    cases
}
