//! A small program and new code for it, with assertions that follow from each other.

use crate::generate::harness;
use reference::assemble::Plan;
use reference::checker::obligations::{duties, Duty};
use reference::formula::parse::Counts;
use reference::formula::replace::{Replace, Replacement};
use reference::formula::{Assertion, Test, Value};
use reference::image::{Access, Header, Instruction, Program, Thread};
use reference::proof::{around, implies, triple, Lemma};
use std::rc::Rc;

type A = Rc<Assertion>;

/// Register 1 is this.
pub fn is(value: u8) -> A {
    Assertion::holds(Test::equal(Value::Register(1), Value::Constant(value))).into()
}

/// Register 1 is this at most.
pub fn up_to(value: u8) -> A {
    let above = Test::less(Value::Constant(value), Value::Register(1));
    Assertion::holds(Test::negated(above)).into()
}

pub fn truth() -> A {
    Assertion::truth().into()
}

/// Two threads, a word that is 3, a register of thread 1, and one of thread 2 that is open.
pub fn header() -> Header {
    let counts = Counts { threads: 2, words: 1, registers: 2, range: 8 };
    Header { counts, start: vec![3], owners: vec![1, 2], marks: vec![1, 0] }
}

/// The old code: register 1 becomes 2, then 5; thread 2 stores 1, by a releasing store.
pub fn old_code() -> Plan {
    old_code_with(header())
}

pub fn old_code_with(header: Header) -> Plan {
    plan(header, &[2, 5], &[is(0), is(2), is(5)], vec![store(1)])
}

/// The new code: register 1, which is at most 5, becomes 7; thread 2 stores 2, then 4. The first lines hand over: 1 to 3
/// from the old points of thread 1 to point 0, 4 from those of thread 2 to any of its points.
pub fn new_code() -> Plan {
    new_code_with(header())
}

pub fn new_code_with(header: Header) -> Plan {
    let mut plan = plan(header, &[7], &[up_to(5), is(7)], vec![store(2), store(4)]);
    let later = |value| implies(21, is(value), up_to(5), &[]);
    plan.spare = vec![later(0), later(2), later(5), implies(20, truth(), truth(), &[])];
    plan
}

/// The entries of the old points: thread 1 goes on at point 0, thread 2 at the point where it is.
pub const TABLE: [u8; 15] = [0, 1, 0, 0, 2, 0, 0, 3, 0, 0, 4, 0, 1, 4, 0];

fn store(value: u8) -> Instruction {
    Access::Store { word: 1, value: Rc::new(Value::Constant(value)), releasing: true }.into()
}

/// Thread 1 assigns these values to register 1, with these assertions; of thread 2 nothing is said.
fn plan(header: Header, values: &[u8], outline: &[A], second: Thread) -> Plan {
    let assign = |&value: &u8| Instruction::assign(1, Value::Constant(value));
    let said = vec![outline.to_vec(), vec![truth(); second.len() + 1]];
    let threads = vec![values.iter().map(assign).collect(), second];
    let mut plan = harness::plan(Program { header, threads, outline: said });
    for (duty, proof) in duties(&plan.program.threads).iter().zip(&mut plan.obligations) {
        match *duty {
            Duty::Start { thread: 1 } => *proof = Some(from_start(&outline[0])),
            Duty::Next { thread: 1, point } => {
                let at = usize::from(point);
                *proof = Some(assigned(point, [&outline[at], &outline[at + 1]], values[at]));
            }
            _ => {}
        }
    }
    plan
}

/// From start to the first assertion: by rule 27, and then by rows.
fn from_start(first: &A) -> Lemma {
    let zero = implies(27, Assertion::Start, is(0), &[]);
    let weaker = implies(21, is(0), first.clone(), &[]);
    implies(20, Assertion::Start, first.clone(), &[&zero, &weaker])
}

/// What an assignment to register 1 at a point of thread 1 gives, whatever was before.
fn assigned(point: u8, [left, right]: [&A; 2], value: u8) -> Lemma {
    let by = Rc::new(Value::Constant(value));
    let before = right.replace(&[Replacement { leaf: Value::Register(1), by }]);
    let step = triple(2, (1, point), before.clone(), right.clone(), &[]);
    let known = implies(21, Assertion::truth(), before.clone(), &[]);
    let first = implies(20, left.clone(), before, &[&known]);
    around(&first, &step, &implies(20, right.clone(), right.clone(), &[]))
}
