//! Each clause of the machine on small programs.

use super::{case, image_of, ReplayCase};
use crate::generate::traces::{repeating, Call};
use reference::formula::parse::Counts;
use reference::formula::{Test, Value};
use reference::image::{Access, Header, Instruction, Note, Thread};
use std::rc::Rc;

/// All cases of the machine.
pub fn cases() -> Vec<ReplayCase> {
    [stores(), swaps(), loads(), notes(), sums(), largest()].concat()
}

/// Two words, a cleared and an open register for each of three threads.
fn header() -> Header {
    let counts = Counts { threads: 3, words: 2, registers: 6, range: 8 };
    let (owners, marks) = (vec![1, 1, 2, 2, 3, 3], vec![1, 0, 1, 0, 1, 0]);
    Header { counts, start: vec![3, 4], owners, marks }
}

/// A trace of up to three threads; registers 2, 4 and 6 start at 5, 6 and 7.
fn run(label: impl Into<String>, mut threads: Vec<Thread>, trace: &[u8]) -> ReplayCase {
    threads.resize(3, Vec::new());
    let case = case(label, &image_of(&header(), threads), trace);
    ReplayCase { call: Call { given: vec![1, 5, 1, 14, 1, 255], ..case.call }, ..case }
}

fn constant(value: u8) -> Rc<Value> {
    Rc::new(Value::Constant(value))
}

fn register(number: u8) -> Rc<Value> {
    Rc::new(Value::Register(number))
}

fn store(word: u8, value: Rc<Value>, releasing: bool) -> Access {
    Access::Store { word, value, releasing }
}

fn swap(word: u8, value: u8) -> Access {
    Access::Swap { word, value: constant(value) }
}

fn load(register: u8, word: u8, acquiring: bool) -> Instruction {
    Access::Load { register, word, acquiring }.into()
}

/// Word 1 := 1, then word 2 := 2, releasing or not.
fn writer(releasing: bool) -> Thread {
    vec![store(1, constant(1), false).into(), store(2, constant(2), releasing).into()]
}

fn stores() -> Vec<ReplayCase> {
    let other = || vec![store(1, constant(7), false).into(), store(2, register(4), true).into()];
    let both = || vec![writer(true), other()];
    let mut cases = Vec::new();
    for (name, trace) in [
        ("behind the last write", &[1, 0, 1, 0, 2, 1, 2, 1][..]),
        ("behind an earlier write", &[1, 0, 1, 0, 2, 0, 2, 0]),
        ("an earlier one and the last", &[1, 0, 1, 0, 2, 0, 2, 1]),
        ("each between the other's", &[1, 0, 2, 0, 1, 0, 2, 1]),
    ] {
        cases.push(run(format!("stores: {name}"), both(), trace));
    }
    // The reader's own write has moved one further.
    let reader = vec![load(5, 1, false), load(6, 1, false)];
    let three = || vec![writer(true), other(), reader.clone()];
    for (name, position) in [("28: what was inserted", 1), ("its own again", 2), ("28: none", 3)] {
        let trace = [1, 0, 3, 1, 2, 0, 3, position];
        cases.push(run(format!("{name}: a view behind an insertion"), three(), &trace));
    }
    cases
}

fn swaps() -> Vec<ReplayCase> {
    let value = constant(6);
    let actions = [
        ("swap", swap(2, 5)),
        ("exchange", Access::Exchange { register: 3, word: 2, value: value.clone() }),
        ("fetch-add", Access::FetchAdd { register: 3, word: 2, value }),
        ("store", store(2, constant(5), true)),
    ];
    let mut cases = Vec::new();
    for (name, access) in actions {
        let action = Instruction::from(access);
        for (kind, releasing) in [("releasing", true), ("relaxed", false)] {
            let code = || vec![writer(releasing), vec![action.clone(), action.clone()]];
            let label = |what: &str| format!("{name}, {kind} write: {what}");
            cases.push(run(label("behind it"), code(), &[1, 0, 1, 0, 2, 1, 2, 2]));
            cases.push(run(label("before it"), code(), &[1, 0, 1, 0, 2, 0, 2, 1]));
            cases.push(run(label("twice behind one"), code(), &[1, 0, 1, 0, 2, 0, 2, 0]));
        }
        // Two threads at one write, and a third that reads: a covered write is read, and nothing goes behind it.
        let code = || vec![vec![swap(2, 5).into()], vec![action.clone()], vec![load(5, 2, true)]];
        cases.push(run(format!("{name}: read behind it"), code(), &[2, 0, 3, 1]));
        cases.push(run(format!("{name}: read before it"), code(), &[2, 0, 3, 0]));
        cases.push(run(format!("{name}, then a swap behind one write"), code(), &[2, 0, 1, 0]));
        cases.push(run(format!("28: {name} behind a covered write"), code(), &[1, 0, 2, 0]));
    }
    cases
}

fn loads() -> Vec<ReplayCase> {
    let mut cases = Vec::new();
    for (kind, releasing) in [("releasing", true), ("relaxed", false)] {
        for (name, acquiring) in [("acquiring", true), ("relaxed", false)] {
            let reader = vec![load(3, 2, acquiring), load(4, 1, false)];
            for position in 0..3 {
                let label = format!("{name} load of a {kind} write, then position {position}");
                let trace = [1, 0, 1, 0, 2, 1, 2, position];
                cases.push(run(label, vec![writer(releasing), reader.clone()], &trace));
            }
        }
    }
    // What was released reaches a third thread through a swap.
    let through =
        vec![writer(true), vec![swap(2, 6).into()], vec![load(5, 2, true), load(6, 1, true)]];
    cases.push(run("through a swap", through.clone(), &[1, 0, 1, 0, 2, 1, 3, 2, 3, 1]));
    let covered = through.clone();
    cases.push(run("28: through a swap, from before", through, &[1, 0, 1, 0, 2, 1, 3, 2, 3, 0]));
    let trace = [1, 0, 1, 0, 2, 1, 3, 1, 3, 0];
    cases.push(run("28: what a covered write released, from before", covered, &trace));
    // The reader has seen more of word 1 than the releasing write has.
    let other = vec![store(1, constant(7), false).into()];
    let reader = vec![load(5, 1, false), load(6, 2, true), load(5, 1, false)];
    for (name, position) in [("28: what was released", 1), ("its own", 2)] {
        let code = vec![writer(true), other.clone(), reader.clone()];
        let trace = [1, 0, 1, 0, 2, 1, 3, 2, 3, 1, 3, position];
        cases.push(run(format!("{name}: an acquire of an older view"), code, &trace));
    }
    cases
}

fn notes() -> Vec<ReplayCase> {
    let sum = |number| Rc::new(Value::sum(Value::Register(number), Value::Constant(7)));
    let pair = |access| Instruction::pair(access, Note::new(2, sum(2)));
    let trade = Instruction::trade(Note::new(1, register(2)), Note::new(2, sum(1)));
    let is_five = Test::equal(Value::Register(2), Value::Constant(5));
    let branch = |test: Test| Instruction::Branch { test: test.into(), target: 0 };
    let mut cases = Vec::new();
    for (name, action) in [
        ("pair of a store", pair(store(1, register(2), false))),
        ("pair of a releasing store", pair(store(1, register(2), true))),
        ("pair of a swap", pair(Access::Swap { word: 1, value: register(2) })),
        ("assignment", Instruction::assign(2, sum(2))),
        ("trade", trade),
        ("branch taken", branch(is_five.clone())),
        ("branch not taken", branch(Test::negated(is_five))),
    ] {
        let code = || vec![vec![action.clone(), action.clone()]];
        for (what, trace) in
            [("once", &[1, 0][..]), ("twice", &[1, 0, 1, 1]), ("again", &[1, 0, 1, 0])]
        {
            cases.push(run(format!("{name}, {what}"), code(), trace));
        }
        cases.push(run(format!("28: {name}, position 1"), code(), &[1, 1]));
        cases.push(run(format!("{name}, behind its own write"), code(), &[1, 0, 1, 1, 1, 0]));
        cases.push(run(format!("{name}, three times at 0"), code(), &[1, 0, 1, 0, 1, 0]));
    }
    cases
}

/// A word that is counted up, in every range.
fn sums() -> Vec<ReplayCase> {
    let counted = |range: u8| {
        let counts = Counts { threads: 1, words: 1, registers: 1, range };
        let header = Header::cleared(counts, vec![range - 2], vec![1]);
        let image = image_of(&header, vec![repeating(1, Some(1))]);
        let trace: Vec<u8> = (0..4).flat_map(|at| [1, at, 1, 0]).collect();
        case(format!("counted up, range {range}"), &image, &trace)
    };
    (2..=16).map(counted).collect()
}

/// Eight words, four threads, sixteen registers: every place of an entry and of the answer is used.
fn largest() -> Vec<ReplayCase> {
    let counts = Counts { threads: 4, words: 8, registers: 16, range: 16 };
    let owners = (0..16).map(|register| 1 + register % 4).collect();
    let header = Header { counts, start: (8..16).collect(), owners, marks: vec![0; 16] };
    let thread = |thread: u8| {
        let write = |word| store(word, register(thread + 4), true).into();
        let order: Vec<u8> =
            if thread % 2 == 1 { (1..=8).collect() } else { (1..=8).rev().collect() };
        let writes = order.into_iter().map(write);
        let reads = (1..=4).map(|word| load(thread, word, true));
        writes.chain(reads).chain([Instruction::assign(thread + 8, constant(thread))]).collect()
    };
    let image = image_of(&header, (1..=4).map(thread).collect());
    let all: Vec<u8> = (0..12).flat_map(|_| [1, 0, 2, 0, 3, 0, 4, 0]).collect();
    let one: Vec<u8> = [1, 0].repeat(8);
    let mixed = [&one[..], &[4, 1, 4, 1, 4, 0, 3, 0, 2, 2, 2, 1, 3, 1, 3, 2]].concat();
    let traces = [("one thread", one.clone()), ("all in turn", all), ("mixed", mixed)];
    let with = |(name, trace): (&str, Vec<u8>)| {
        let case = case(format!("largest: {name}"), &image, &trace);
        ReplayCase { call: Call { given: (1..=16).collect(), ..case.call }, ..case }
    };
    traces.into_iter().map(with).collect()
}
