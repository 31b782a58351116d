//! What the rules for exchange and fetch-add, for pairs and for two assignments at once ask for, and rule 27, is
//! needed: without it the machine breaks them.

mod fetches;
mod pairs;

use reference::explore::truth::is_true;
use reference::explore::{reachable, Bounds};
use reference::formula::parse::Counts;
use reference::formula::{Assertion, Interval, Test, Value};
use reference::image::{Access, Header, Instruction, Note, Program, Thread};
use reference::machine::{take, State, Step};
use std::rc::Rc;

const BOUNDS: Bounds = Bounds { steps: 3, writes: 4, starts: 4096, states: usize::MAX };

/// Word 1 starts at 1, word 2 at 0. Thread 1 owns both registers.
fn program(action: Instruction) -> Program {
    let counts = Counts { threads: 2, words: 2, registers: 2, range: 8 };
    let header = Header::cleared(counts, vec![1, 0], vec![1, 1]);
    let threads: Vec<Thread> = vec![vec![action], Vec::new()];
    let truth = Rc::new(Assertion::truth());
    Program { header, threads, outline: vec![vec![truth.clone(); 2], vec![truth]] }
}

/// How often the instruction takes the left side to the right one, and how often not.
fn outcomes(program: &Program, left: &Assertion, right: &Assertion) -> (usize, usize) {
    let states = reachable(program, BOUNDS);
    let header = &program.header;
    let before = states.iter().filter(|state| is_true(left, state, header));
    let after = before.flat_map(|state| {
        (0..BOUNDS.writes)
            .filter_map(|position| take(&program.threads, state, Step { thread: 1, position }))
    });
    let (kept, broken): (Vec<bool>, Vec<bool>) =
        after.map(|state| is_true(right, &state, header)).partition(|holds| *holds);
    (kept.len(), broken.len())
}

fn holds_after(program: &Program, left: &Assertion, right: &Assertion) {
    let (kept, broken) = outcomes(program, left, right);
    assert!(kept > 0 && broken == 0, "{left} to {right}: {kept} kept, {broken} broken");
}

fn breaks(program: &Program, left: &Assertion, right: &Assertion) {
    let (_, broken) = outcomes(program, left, right);
    assert!(broken > 0, "{left} to {right}");
}

fn register_is(value: u8) -> Assertion {
    Assertion::holds(Test::equal(Value::Register(1), Value::Constant(value)))
}

fn word_is(word: u8, value: Value) -> Interval {
    Interval::all(Test::equal(Value::Word(word), value))
}

#[test]
fn rule_27_asks_for_the_mark() {
    let header = |mark: u8| Header {
        marks: vec![mark, 1],
        ..program(Instruction::assign(1, Value::Constant(3))).header
    };
    let broken = |header: &Header| {
        let states: Vec<State> = State::starts(header, 100).collect();
        assert!(states.iter().all(|state| is_true(&Assertion::Start, state, header)));
        states.iter().filter(|state| !is_true(&register_is(0), state, header)).count()
    };
    assert_eq!(broken(&header(1)), 0);
    assert_eq!(broken(&header(0)), 7);
}
