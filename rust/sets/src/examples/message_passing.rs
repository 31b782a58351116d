//! Message passing: a writer stores data, then a flag with release; a reader
//! waits for the flag with acquiring loads and then reads the data.
//!
//! ```text
//! thread 1: 0: w1 := 5          thread 2: 0: r1 := w2 (acquiring)
//!           1: w2 := 1 (rel.)             1: if r1 = 0 go to 0
//!           2:                            2: r2 := w1
//!                                         3: holds r2 = 5
//! ```

use reference::assemble::Plan;
use reference::checker::obligations::{duties, Duty};
use reference::formula::parse::Counts;
use reference::formula::{Assertion, Interval, Test, Value};
use reference::image::{Access, Header, Instruction, Program};
use reference::proof::{around, choice, consequence, implies, included, pair, seen, triple, Lemma};
use std::rc::Rc;

const DATA: u8 = 1;
const FLAG: u8 = 2;
const WRITER: u8 = 1;
const READER: u8 = 2;

/// The image with its proof.
pub fn message_passing() -> Plan {
    let program = program();
    let prove = |duty: &Duty| match *duty {
        Duty::Start { thread } => at_start(thread),
        Duty::Next { thread: WRITER, point } => writer_step(point),
        Duty::Next { thread: _, point } => reader_step(point),
        Duty::Taken { .. } => implies(20, Assertion::both(tried(), holds(zero())), waiting(), &[]),
        Duty::Kept { thread: WRITER, point, action, .. } => {
            unaffected(writer_at(point), reader_at(action), (READER, action))
        }
        Duty::Kept { thread: _, point, action, .. } => kept_by_writer(point, action),
    };
    let obligations = duties(&program.threads).iter().map(|duty| Some(prove(duty))).collect();
    Plan::new(program, obligations)
}

fn program() -> Program {
    let constant = |number| Rc::new(Value::Constant(number));
    let writer = vec![
        Access::Store { word: DATA, value: constant(5), releasing: false }.into(),
        Access::Store { word: FLAG, value: constant(1), releasing: true }.into(),
    ];
    let reader = vec![
        Access::Load { register: 1, word: FLAG, acquiring: true }.into(),
        Instruction::Branch { test: Rc::new(zero()), target: 0 },
        Access::Load { register: 2, word: DATA, acquiring: false }.into(),
    ];
    let counts = Counts { threads: 2, words: 2, registers: 2, range: 8 };
    Program {
        header: Header::cleared(counts, vec![0, 0], vec![READER, READER]),
        threads: vec![writer, reader],
        outline: vec![
            (0..3).map(|point| Rc::new(writer_at(point))).collect(),
            (0..4).map(|point| Rc::new(reader_at(point))).collect(),
        ],
    }
}

/// r1 = 0
fn zero() -> Test {
    Test::equal(Value::Register(1), Value::Constant(0))
}

fn holds(test: Test) -> Assertion {
    Assertion::holds(test)
}

/// [word = value]
fn word_is(word: u8, value: u8) -> Interval {
    Interval::all(Test::equal(Value::Word(word), Value::Constant(value)))
}

fn one(word: u8) -> Assertion {
    Assertion::sees(WRITER, Interval::One(word))
}

/// The writer has stored the data and sees its own write only.
fn stored() -> Assertion {
    Assertion::sees(WRITER, Interval::both(Interval::One(DATA), word_is(DATA, 5)))
}

/// The reader sees the flag unset.
fn unset() -> Assertion {
    Assertion::sees(READER, word_is(FLAG, 0))
}

/// The reader sees the data.
fn ready() -> Assertion {
    Assertion::sees(READER, word_is(DATA, 5))
}

/// [unsync flag];[data = 5]
fn released() -> Interval {
    Interval::chop(Interval::all(Test::Unsync(FLAG)), word_is(DATA, 5))
}

/// The reader sees the flag unset until a write that brings the data with it.
fn waiting() -> Assertion {
    Assertion::sees(READER, Interval::chop(word_is(FLAG, 0), released()))
}

/// The reader has read the flag unset, or sees the data.
fn outcome() -> Assertion {
    Assertion::either(holds(zero()), ready())
}

fn tried() -> Assertion {
    Assertion::both(waiting(), outcome())
}

fn writer_at(point: u8) -> Assertion {
    match point {
        0 => Assertion::both(one(DATA), Assertion::both(one(FLAG), unset())),
        1 => Assertion::both(stored(), Assertion::both(one(FLAG), unset())),
        _ => Assertion::truth(),
    }
}

fn reader_at(point: u8) -> Assertion {
    match point {
        0 => waiting(),
        1 => tried(),
        2 => ready(),
        _ => holds(Test::equal(Value::Register(2), Value::Constant(5))),
    }
}

/// start to t sees `wanted`, a part of what is known of the word at start.
fn initially(thread: u8, word: u8, rule: u8, wanted: Interval) -> Lemma {
    let known = Interval::both(Interval::One(word), word_is(word, 0));
    let first = implies(26, Assertion::Start, Assertion::sees(thread, known.clone()), &[]);
    let part = seen(thread, &included(rule, known, wanted.clone(), &[]));
    implies(20, Assertion::Start, Assertion::sees(thread, wanted), &[&first, &part])
}

fn at_start(thread: u8) -> Lemma {
    let flag_unset = initially(READER, FLAG, 40, word_is(FLAG, 0));
    if thread == READER {
        let then = [&flag_unset, &unset_waits()];
        return implies(20, Assertion::Start, waiting(), &then);
    }
    let data = initially(WRITER, DATA, 39, Interval::One(DATA));
    let flag = initially(WRITER, FLAG, 39, Interval::One(FLAG));
    implies(20, Assertion::Start, writer_at(0), &[&data, &flag, &flag_unset])
}

/// Where the flag is unset the reader waits as it should.
fn unset_waits() -> Lemma {
    let longer = Interval::chop(word_is(FLAG, 0), released());
    seen(READER, &included(36, word_is(FLAG, 0), longer, &[]))
}

/// Rule 1 at a place.
fn same(place: (u8, u8), assertion: Assertion) -> Lemma {
    triple(1, place, assertion.clone(), assertion, &[])
}

fn writer_step(point: u8) -> Lemma {
    let place = (WRITER, point);
    if point == 1 {
        return consequence(writer_at(1), &same(place, Assertion::truth()), writer_at(2));
    }
    let settled = triple(6, place, one(DATA), stored(), &[]);
    pair(&settled, &pair(&same(place, one(FLAG)), &same(place, unset())))
}

fn reader_step(point: u8) -> Lemma {
    match point {
        0 => consequence(waiting(), &pair(&same((READER, 0), waiting()), &acquired()), tried()),
        1 => {
            let not_taken = Assertion::both(tried(), holds(Test::negated(zero())));
            implies(20, not_taken, ready(), &[])
        }
        _ => triple(3, (READER, 2), ready(), reader_at(3), &[]),
    }
}

/// The acquiring load reads the flag unset or brings the data.
fn acquired() -> Lemma {
    let place = (READER, 0);
    let brought = Assertion::sees(READER, released());
    let skipped = triple(5, place, brought, ready(), &[&same(place, ready())]);
    triple(4, place, waiting(), outcome(), &[&skipped])
}

/// An assertion in which nothing occurs that the action changes.
fn unaffected(assertion: Assertion, actor: Assertion, place: (u8, u8)) -> Lemma {
    let left = Assertion::both(assertion.clone(), actor);
    consequence(left, &same(place, assertion.clone()), assertion)
}

fn kept_by_writer(point: u8, action: u8) -> Lemma {
    let place = (WRITER, action);
    let before = Assertion::both(reader_at(point), writer_at(action));
    match (point, action) {
        (0, _) => around_writer(before, &still_waiting(action), waiting()),
        (1, _) => {
            let read_zero = same(place, holds(zero()));
            let outcome_kept = choice(&read_zero, &still_ready(action));
            around_writer(before, &pair(&still_waiting(action), &outcome_kept), tried())
        }
        (2, _) => around_writer(before, &still_ready(action), ready()),
        _ => unaffected(reader_at(point), writer_at(action), place),
    }
}

/// Rule 16 with what the writer knows before its step as help for the left side.
fn around_writer(before: Assertion, middle: &Lemma, right: Assertion) -> Lemma {
    let settled = Interval::both(Interval::One(DATA), word_is(DATA, 5));
    let data_known = seen(WRITER, &included(40, settled, word_is(DATA, 5), &[]));
    let (left, middle_right) = middle.assertions();
    let help = [&data_known, &five_is_five()];
    let first = implies(20, before, left.clone(), &help);
    let last = implies(20, middle_right.clone(), right, &[&unset_waits()]);
    around(&first, middle, &last)
}

/// true to the reader sees [5 = 5]
fn five_is_five() -> Lemma {
    implies(24, Assertion::truth(), Assertion::sees(READER, five()), &[])
}

/// [5 = 5]
fn five() -> Interval {
    Interval::all(Test::equal(Value::Constant(5), Value::Constant(5)))
}

/// What the writer's step makes of a reader that sees the flag unset.
fn still_waiting(action: u8) -> Lemma {
    let place = (WRITER, action);
    if action == 0 {
        return same(place, unset());
    }
    let data_known = Assertion::sees(WRITER, word_is(DATA, 5));
    let left = Assertion::both(one(FLAG), Assertion::both(unset(), data_known));
    triple(8, place, left, waiting(), &[])
}

/// The writer's step keeps what the reader sees of the data.
fn still_ready(action: u8) -> Lemma {
    let place = (WRITER, action);
    if action == 1 {
        return same(place, ready());
    }
    let left = Assertion::both(ready(), Assertion::sees(READER, five()));
    triple(9, place, left, ready(), &[])
}
