//! The accepted image to which faults are added: every operation, two threads,
//! lines of all three forms, 144 obligations, two claims.

use crate::generate::harness;
use reference::formula::parse::Counts;
use reference::formula::{Assertion, Interval, Test, Value};
use reference::image::written::Record;
use reference::image::{Access, Header, Instruction, Meeting, Note, Thread};
use reference::proof::{implies, included, seen};
use std::rc::Rc;

/// Formulas that no record of the plan uses, for faults of sort.
/// They follow the plan's own formulas in this order.
pub const SPARE_FORMULAS: [&[u8]; 9] = [
    &[0, 1],
    &[2, 1],
    &[8],
    &[14, 1],
    &[15, 2],
    &[17, 1],
    &[25, 28, 8, 27],
    &[1, 2],
    &[9, 1, 2, 0, 0],
];

/// What a spare formula is.
#[derive(Clone, Copy, Debug)]
pub enum Spare {
    Value = 0,
    Word = 1,
    Test = 2,
    Unsync = 3,
    Covered = 4,
    Interval = 5,
    HiddenStart = 6,
    OtherRegister = 7,
    OtherTest = 8,
}

fn header() -> Header {
    let counts = Counts { threads: 2, words: 2, registers: 4, range: 8 };
    Header::cleared(counts, vec![0, 7], vec![1, 2, 1, 2])
}

fn register(number: u8) -> Rc<Value> {
    Rc::new(Value::Register(number))
}

/// Thread 1 has an instruction of each operation from 0 to 6, in this order.
fn first_thread() -> Thread {
    let sum = Rc::new(Value::sum(Value::Constant(1), Value::Register(3)));
    let test = Rc::new(Test::equal(Value::Register(1), Value::Constant(0)));
    vec![
        Instruction::assign(1, sum),
        Access::Load { register: 1, word: 1, acquiring: false }.into(),
        Access::Load { register: 3, word: 2, acquiring: true }.into(),
        Access::Store { word: 1, value: register(1), releasing: false }.into(),
        Access::Store { word: 2, value: register(3), releasing: true }.into(),
        Access::Swap { word: 1, value: register(3) }.into(),
        Instruction::Branch { test, target: 0 },
    ]
}

/// Thread 2 has the operations 7 to 12 from point 2 on. 7 and 8 have each the other's register as their operand; the
/// last one trades these registers. Behind a branch that is always taken its last point is never reached.
fn second_thread() -> Thread {
    let note = || Note::new(2, register(4));
    vec![
        Access::Load { register: 2, word: 1, acquiring: true }.into(),
        Access::Store { word: 1, value: register(2), releasing: false }.into(),
        Access::Exchange { register: 2, word: 1, value: register(4) }.into(),
        Access::FetchAdd { register: 4, word: 2, value: register(2) }.into(),
        Instruction::pair(Access::Store { word: 1, value: register(2), releasing: false }, note()),
        Instruction::pair(Access::Store { word: 2, value: register(2), releasing: true }, note()),
        Instruction::pair(Access::Swap { word: 1, value: register(2) }, note()),
        Instruction::trade(Note::new(4, register(2)), note()),
        Instruction::Branch { test: Test::truth().into(), target: 0 },
    ]
}

/// The thread, from 0, of the instruction with this operation, and where its bytes begin in the record's body.
pub fn place_of(operation: usize) -> (usize, usize) {
    match operation {
        0..=6 => (0, 1 + 5 * operation),
        7 | 8 => (1, 1 + 5 * (operation - 5)),
        _ => (1, 21 + 10 * (operation - 9)),
    }
}

/// The claims: thread 2 is never at its last point, wherever thread 1 is.
const NEVER: [Meeting; 2] = [
    Meeting { thread: 1, point: 0, other_thread: 2, other_point: 9 },
    Meeting { thread: 2, point: 9, other_thread: 1, other_point: 7 },
];

/// The records of the image.
pub fn records() -> Vec<Record> {
    let mut program = harness::program(header(), vec![first_thread(), second_thread()]);
    let never = Rc::new(Assertion::holds(Test::False));
    *program.outline[1].last_mut().expect("a last point") = never.clone();
    let mut plan = harness::plan(program);
    let both = Assertion::both(Assertion::truth(), never.clone());
    let ruled_out = implies(20, both, never, &[]);
    plan.claims = NEVER.map(|meeting| (meeting, Some(ruled_out.clone()))).to_vec();
    let known = Interval::both(Interval::One(1), Interval::all(Test::Covered(2)));
    let part = included(39, known.clone(), Interval::One(1), &[]);
    let premises = [&seen(2, &part)];
    let both = Assertion::sees(2, known);
    plan.spare = vec![implies(20, both, Assertion::sees(2, Interval::One(1)), &premises)];

    let mut records = plan.records();
    let formulas = records.iter().filter(|record| record.kind == 2).count();
    let spare = SPARE_FORMULAS.map(|bytes| Record::new(2, bytes));
    records.splice(1 + formulas..1 + formulas, spare);
    records
}
