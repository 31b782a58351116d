//! Obligations: whole proofs, and lines that do not serve them.

use super::frame::action;
use crate::examples::{message_passing, two_writes};
use crate::generate::harness;
use crate::generate::instances::ACTIONS;
use crate::vectors::Case;
use reference::assemble::Plan;
use reference::checker::obligations::duties;
use reference::formula::encode::Encode;
use reference::formula::parse::parse;
use reference::formula::{Assertion, Interval, Test, Value};
use reference::image::{Access, Instruction, Note, Statement, Thread};
use reference::proof::{Lemma, Proof};
use std::rc::Rc;

pub fn cases() -> Vec<Case> {
    let mut cases = vec![
        Case::new("accepted: message passing", message_passing().bytes()),
        Case::new("accepted: one writer of 1 and 2, a reader", two_writes().bytes()),
    ];
    cases.extend(each_obligation(&message_passing()));
    cases.extend(changed_program());
    cases.extend(harmless_lines());
    cases.extend(long_conclusions());
    cases.extend(three_threads());
    cases
}

/// Message passing with one obligation served badly, for each obligation.
fn each_obligation(plan: &Plan) -> Vec<Case> {
    let mut cases = Vec::new();
    let list = duties(&plan.program.threads);
    for (index, duty) in list.iter().enumerate() {
        let proof = plan.obligations[index].as_ref().expect("a proof");
        let next = plan.obligations[(index + 1) % list.len()].clone();
        let mut with = |what: &str, line: Option<Lemma>| {
            let mut changed = plan.clone();
            changed.obligations[index] = line;
            cases.push(Case::new(format!("{what}: {duty:?}"), changed.bytes()));
        };
        with("20: no line", None);
        with("21: line of the next obligation", next);
        with("22: line by another rule", Some(by_another_rule(proof)));
        with("21: left side changed", Some(restated(proof, true, false)));
        with("21: right side changed", Some(restated(proof, false, true)));
        with("21 before 22: both", Some(by_another_rule(&restated(proof, true, true))));
    }
    cases
}

fn by_another_rule(proof: &Lemma) -> Lemma {
    let rule = match proof.statement {
        Statement::Triple { .. } => 12,
        Statement::Implication { .. } => 25,
        Statement::Inclusion { .. } => 45,
    };
    Rc::new(Proof { rule, ..Proof::clone(proof) })
}

/// The line with other sides; it concludes something else, justified or not.
fn restated(proof: &Lemma, on_left: bool, on_right: bool) -> Lemma {
    let mut new = Proof::clone(proof);
    if let Statement::Triple { left, right, .. } | Statement::Implication { left, right } =
        &mut new.statement
    {
        let wrapped = |side: &Rc<Assertion>| Assertion::both(side.clone(), Assertion::truth());
        if on_left {
            *left = wrapped(left).into();
        }
        if on_right {
            *right = wrapped(right).into();
        }
    }
    Rc::new(new)
}

/// Message passing with another instruction at each point but the branch. Registers 3 and 4 are thread 1's.
fn changed_program() -> Vec<Case> {
    let mut cases = Vec::new();
    for (thread, point, registers) in
        [(0, 0, [3, 4]), (0, 1, [3, 4]), (1, 0, [1, 2]), (1, 2, [2, 1])]
    {
        for operation in ACTIONS {
            for word in [1, 2] {
                let mut plan = message_passing();
                plan.program.header.counts.registers = 4;
                plan.program.header.owners.extend([1, 1]);
                plan.program.header.marks.extend([1, 1]);
                plan.program.threads[thread][point] = constant_action(operation, registers, word);
                let place = format!("thread {} point {point}", thread + 1);
                let what = format!("operation {operation}, word {word}, at {place}");
                cases.push(Case::new(format!("message passing with {what}"), plan.bytes()));
            }
        }
    }
    cases
}

/// An instruction that reads no register; the first one is a result, the second one is noted.
fn constant_action(operation: u8, [register, noted]: [u8; 2], word: u8) -> Instruction {
    let value = Rc::new(Value::Constant(5));
    let note = Note::new(noted, Value::Constant(2));
    match operation {
        0 => Instruction::assign(register, value),
        1 | 2 => Access::Load { register, word, acquiring: operation == 2 }.into(),
        3 | 4 => Access::Store { word, value, releasing: operation == 4 }.into(),
        5 => Access::Swap { word, value }.into(),
        7 => Access::Exchange { register, word, value }.into(),
        8 => Access::FetchAdd { register, word, value }.into(),
        9 | 10 => {
            Instruction::pair(Access::Store { word, value, releasing: operation == 10 }, note)
        }
        11 => Instruction::pair(Access::Swap { word, value }, note),
        _ => Instruction::trade(Note::new(register, value), note),
    }
}

/// A releasing store.
fn store(word: u8) -> Instruction {
    constant_action(4, [4, 3], word)
}

/// Lines on which no obligation rests may be unjustified.
fn harmless_lines() -> Vec<Case> {
    let mut cases = Vec::new();
    for (name, proof) in [
        ("triple", message_passing().obligations[2].clone()),
        ("implication", message_passing().obligations[0].clone()),
    ] {
        let bad = by_another_rule(&proof.expect("a proof"));
        let mut plan = message_passing();
        plan.spare = vec![bad];
        cases.push(Case::new(format!("harmless: an unjustified {name}"), plan.bytes()));
    }
    let included = Statement::Inclusion {
        left: Interval::One(1).into(),
        right: Interval::all(Test::False).into(),
    };
    let mut plan = message_passing();
    plan.spare = vec![Rc::new(Proof { rule: 46, statement: included, premises: Vec::new() })];
    cases.push(Case::new("harmless: an unjustified inclusion", plan.bytes()));
    cases
}

/// What an obligation wants may be too long or too deep for any formula: 21.
fn long_conclusions() -> Vec<Case> {
    let mut cases = Vec::new();
    for with_branch in [true, false] {
        for depth in [14, 15, 16] {
            let what = format!("assertion of nesting {depth}, branch: {with_branch}");
            cases.push(second_point(&what, deep(depth), with_branch));
        }
        for length in [246, 247, 248, 249, 250, 251, 252, 253, 254, 255] {
            let what = format!("assertion of {length} bytes, branch: {with_branch}");
            cases.push(second_point(&what, long(length), with_branch));
        }
    }
    cases
}

/// A true assertion of this nesting; "true" itself has 3.
fn deep(nesting: usize) -> Assertion {
    (3..nesting).fold(Assertion::truth(), |all, _| Assertion::both(Assertion::truth(), all))
}

/// A true assertion of this length.
fn long(length: usize) -> Assertion {
    // Parts have 3 bytes, or 5 or 6, and every part but one adds a byte.
    let five = || Assertion::holds(Test::or(Test::False, Test::truth()));
    let six = || Assertion::holds(Test::and(Test::truth(), Test::truth()));
    let mut parts = match (length + 1) % 4 {
        0 => Vec::new(),
        1 => vec![five(), six()],
        2 => vec![five()],
        _ => vec![six()],
    };
    let present: usize = parts.iter().map(|part| part.encode().len() + 1).sum();
    parts.resize(parts.len() + (length + 1 - present) / 4, Assertion::truth());
    balanced(parts)
}

fn balanced(mut parts: Vec<Assertion>) -> Assertion {
    if parts.len() == 1 {
        return parts.remove(0);
    }
    let second = parts.split_off(parts.len() / 2);
    Assertion::both(balanced(parts), balanced(second))
}

/// Thread 1 has the assertion at point 1, perhaps before a branch; obligations that want more than
/// a formula can be are given a line that concludes something else.
fn second_point(what: &str, assertion: Assertion, with_branch: bool) -> Case {
    let test = Rc::new(Test::equal(Value::Register(1), Value::Constant(0)));
    let mut code = vec![action(3)];
    code.extend(with_branch.then_some(Instruction::Branch { test, target: 0 }));
    let threads = vec![code, vec![store(2)]];
    let mut program = harness::program(super::frame::header(), threads);
    program.outline[0][1] = assertion.into();
    let counts = program.header.counts;
    let mut plan = harness::plan(program);
    let other = plan.obligations[0].clone();
    for proof in plan.obligations.iter_mut() {
        let left = proof.as_ref().expect("a proof").assertions().0.encode();
        if left.len() > 255 || parse(&left, counts).is_err() {
            *proof = other.clone();
        }
    }
    Case::new(format!("wanted bytes may be no formula: {what}"), plan.bytes())
}

/// Three threads: the order and the count of all obligations.
fn three_threads() -> Vec<Case> {
    let branch = Instruction::Branch {
        test: Rc::new(Test::equal(Value::Constant(0), Value::Constant(1))),
        target: 2,
    };
    let one_action = vec![
        vec![action(3), branch.clone()],
        vec![branch, store(1)],
        vec![constant_action(5, [4, 3], 1)],
    ];
    let two_actions = vec![vec![action(3), store(1)], vec![store(1), store(1)], vec![store(1)]];
    let pairs = |word: u8| [9, 10, 11].map(|operation| constant_action(operation, [4, 4], word));
    let trade = constant_action(12, [5, 6], 1);
    let noting = vec![vec![action(9), action(12)], pairs(1).to_vec(), vec![trade]];
    let mut cases = each_missing("three threads", one_action);
    cases.extend(each_missing("three threads with pairs", noting));
    cases.extend(each_missing("three threads, two actions", two_actions));
    cases
}

/// A program with every obligation met, and with each of them without a line in turn. Registers 5 and 6 are thread 3's.
fn each_missing(name: &str, threads: Vec<Thread>) -> Vec<Case> {
    let mut header = super::frame::header();
    header.counts.threads = threads.len() as u8;
    header.counts.registers += 2;
    header.owners.extend([3, 3]);
    header.marks.extend([1, 1]);
    let plan = harness::plan(harness::program(header, threads));
    let mut cases = vec![Case::new(format!("accepted: {name}"), plan.bytes())];
    for (index, duty) in duties(&plan.program.threads).iter().enumerate() {
        let mut changed = plan.clone();
        changed.obligations[index] = None;
        cases.push(Case::new(format!("20: {name}, {duty:?}"), changed.bytes()));
    }
    cases
}
