//! What results from replacing may be longer or deeper than any formula, and then equals nothing.
//!
//! Each instruction sets r1 to r2 + 1, which is three bytes longer and one deeper than r1.

use crate::generate::harness;
use crate::vectors::Case;
use reference::assemble::Plan;
use reference::formula::encode::Encode;
use reference::formula::nesting::Nesting;
use reference::formula::parse::Counts;
use reference::formula::{Assertion, Test, Value};
use reference::image::{Access, Header, Instruction, Note};
use reference::proof::{implies, triple, Lemma};

const PLACE: (u8, u8) = (1, 0);

pub fn cases() -> Vec<Case> {
    let mut cases = Vec::new();
    for operation in [0, 9, 10, 11, 12] {
        for nesting in [14, 15, 16] {
            let side = |value: Value| deep(nesting, value);
            cases.push(case(&format!("nesting {nesting}"), operation, side));
        }
        for length in [251, 252, 253, 254, 255] {
            let side = |value: Value| long(length, value);
            cases.push(case(&format!("{length} bytes"), operation, side));
        }
    }
    cases
}

fn action(operation: u8) -> Instruction {
    let grows = Note::new(1, grown());
    let store = |releasing| Access::Store { word: 1, value: Value::Constant(1).into(), releasing };
    match operation {
        0 => Instruction::assign(1, grown()),
        9 | 10 => Instruction::pair(store(operation == 10), grows),
        11 => Instruction::pair(Access::Swap { word: 1, value: Value::Constant(1).into() }, grows),
        _ => Instruction::trade(Note::new(2, Value::Register(1)), grows),
    }
}

fn grown() -> Value {
    Value::sum(Value::Register(2), Value::Constant(1))
}

/// The right side speaks of r1. The left side is the right one with r1 replaced, or, if that is no formula, as it is.
fn case(what: &str, operation: u8, side: impl Fn(Value) -> Assertion) -> Case {
    let (after, before) = (side(Value::Register(1)), side(grown()));
    let (code, before, register) = match before.fits_record() {
        true => ("accepted", before, 2),
        false => ("22", after.clone(), 1),
    };
    let line = match operation {
        0 | 12 => triple(2, PLACE, before.clone(), after.clone(), &[]),
        _ => {
            let first = triple(1, PLACE, before.clone(), before.clone(), &[]);
            triple(50, PLACE, before.clone(), after.clone(), &[&first])
        }
    };
    let counts = Counts { threads: 1, words: 1, registers: 2, range: 8 };
    let header = Header::cleared(counts, vec![0], vec![1, 1]);
    let mut program = harness::program(header, vec![vec![action(operation)]]);
    program.outline = vec![vec![before.clone().into(), after.into()]];
    let obligations = vec![Some(from_start(register, before)), Some(line)];
    let label = format!("{code}: a right side of {what}, operation {operation}");
    Case::new(label, Plan::new(program, obligations).bytes())
}

/// From start, where the register is 0, to what is then true.
fn from_start(register: u8, goal: Assertion) -> Lemma {
    let zero = || Assertion::holds(Test::equal(Value::Register(register), Value::Constant(0)));
    let cleared = implies(27, Assertion::Start, zero(), &[]);
    let then = implies(21, zero(), goal.clone(), &[]);
    implies(20, Assertion::Start, goal, &[&cleared, &then])
}

/// The value is not 3; it is at the end of the formula.
fn other_than_3(value: Value) -> Test {
    Test::negated(Test::equal(Value::Constant(3), value))
}

/// Of this nesting where the value is a register.
fn deep(nesting: usize, value: Value) -> Assertion {
    let wrapped = |depth: usize, value: Value| {
        let test = (0..depth).fold(other_than_3(value), |test, _| Test::or(Test::False, test));
        Assertion::holds(test)
    };
    let least = wrapped(0, Value::Register(1)).nesting();
    wrapped(nesting - least, value)
}

/// Of this length where the value is a register.
fn long(length: usize, value: Value) -> Assertion {
    let least = Assertion::holds(other_than_3(Value::Register(1))).encode().len();
    let missing = length - least;
    // A part of one byte adds two, a part of two bytes three.
    let odd = missing % 2;
    let mut parts = vec![Test::False; (missing - 3 * odd) / 2];
    parts.extend(vec![Test::truth(); odd]);
    parts.push(other_than_3(value));
    Assertion::holds(balanced(parts))
}

fn balanced(mut parts: Vec<Test>) -> Test {
    if parts.len() == 1 {
        return parts.remove(0);
    }
    let second = parts.split_off(parts.len() / 2);
    Test::or(balanced(parts), balanced(second))
}
