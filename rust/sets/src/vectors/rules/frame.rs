//! The fixed program around a line under test.
//!
//! Thread 1 has the instruction under test at point 0, thread 2 has one point.
//! All assertions are "true"; the line decides the obligation of thread 1 at
//! point 0, or, for an implication or inclusion, the first start obligation.

use crate::generate::harness;
use crate::generate::instances::{self, Setting};
use crate::generate::random::Random;
use reference::checker::check;
use reference::checker::rules::Form;
use reference::formula::parse::Counts;
use reference::formula::Value;
use reference::image::{Access, Header, Instruction, Note, Statement, Thread};
use reference::proof::Lemma;
use std::rc::Rc;

/// The place of the instruction under test.
pub const PLACE: (u8, u8) = (1, 0);

pub fn header() -> Header {
    let counts = Counts { threads: 2, words: 3, registers: 4, range: 8 };
    Header::cleared(counts, vec![1, 0, 2], vec![1, 1, 1, 2])
}

/// The value that the instruction under test uses: r2 + 1.
pub fn value() -> Rc<Value> {
    Rc::new(Value::sum(Value::Register(2), Value::Constant(1)))
}

/// The second half of the instruction under test: r2 := r1.
pub fn note() -> Note {
    Note::new(2, Value::Register(1))
}

/// The instruction under test, by operation: register 1, word 1, value r2 + 1.
pub fn action(operation: u8) -> Instruction {
    let value = value();
    match operation {
        0 => Instruction::assign(1, value),
        1 | 2 => Access::Load { register: 1, word: 1, acquiring: operation == 2 }.into(),
        3 | 4 => Access::Store { word: 1, value, releasing: operation == 4 }.into(),
        5 => Access::Swap { word: 1, value }.into(),
        7 => Access::Exchange { register: 1, word: 1, value }.into(),
        8 => Access::FetchAdd { register: 1, word: 1, value }.into(),
        9 | 10 => {
            let store = Access::Store { word: 1, value, releasing: operation == 10 };
            Instruction::pair(store, note())
        }
        11 => Instruction::pair(Access::Swap { word: 1, value }, note()),
        _ => Instruction::trade(Note::new(1, value), note()),
    }
}

/// The image in which the lemma decides the first obligation that it can.
pub fn image(operation: u8, lemma: &Lemma) -> Vec<u8> {
    image_for(operation, lemma, 0)
}

/// The image in which the lemma decides one of the obligations that it can:
/// for a triple 0 is of class 2 and 1 of class 4.
pub fn image_for(operation: u8, lemma: &Lemma, choice: usize) -> Vec<u8> {
    let instructions = usize::from(matches!(lemma.statement, Statement::Triple { .. }));
    image_among(vec![action(operation); instructions], lemma, choice)
}

/// The same, with an equal instruction at point 1.
pub fn image_with_twin(operation: u8, lemma: &Lemma) -> Vec<u8> {
    image_among(vec![action(operation); 2], lemma, 0)
}

/// The image with these start marks in which an implication decides the first obligation.
pub fn image_with_marks(marks: [u8; 4], lemma: &Lemma) -> Vec<u8> {
    let header = Header { marks: marks.into(), ..header() };
    let program = harness::program(header, vec![Vec::new(), Vec::new()]);
    harness::deciding(program, lemma, 0).bytes()
}

fn image_among(code: Thread, lemma: &Lemma, choice: usize) -> Vec<u8> {
    let program = harness::program(header(), vec![code, Vec::new()]);
    harness::deciding(program, lemma, choice).bytes()
}

/// An instance of a rule for an operation, by seed.
pub fn instance(rule: u8, operation: u8, seed: u64) -> Lemma {
    let random = &mut Random::new(1000 * u64::from(rule) + 50 * u64::from(operation) + seed);
    let (header, action) = (header(), action(operation));
    let setting = &mut Setting { random, header: &header, place: PLACE, action: &action };
    instances::instance(setting, rule)
}

/// Of some justified instances the one with the longest image.
pub fn rich_instance(rule: u8, operation: u8) -> Lemma {
    let accepted = |lemma: &Lemma| check(&image(operation, lemma)).code == 0;
    let candidates = (0..5).map(|seed| instance(rule, operation, seed)).filter(accepted);
    candidates.max_by_key(|lemma| image(operation, lemma).len()).expect("a justified instance")
}

/// The operations under which a rule is tried; one suffices where none matters.
pub fn operations(rule: u8) -> &'static [u8] {
    if Form::of_rule(rule) == Some(Form::Triple) {
        instances::operations(rule)
    } else {
        &[3]
    }
}
