//! The obligations of a program, in order, and the verdict on them.

use super::rules;
use super::verdict::Verdict;
use crate::formula::{Assertion, Test};
use crate::image::{Image, Instruction, Line, Program, Statement, Thread};
use std::rc::Rc;

/// Codes of an obligation that is not met.
const NO_LINE: u16 = 20;
const OTHER_CONCLUSION: u16 = 21;
const UNJUSTIFIED: u16 = 22;

/// One obligation, by what it is about. Threads count from 1, points from 0.
#[derive(Clone, Copy, Debug, PartialEq, Eq)]
pub enum Duty {
    /// Class 1: the start state satisfies the thread's first assertion.
    Start { thread: u8 },
    /// Class 2: the instruction, or the branch not taken, leads to the next point.
    Next { thread: u8, point: u8 },
    /// Class 3: the branch taken leads to its target.
    Taken { thread: u8, point: u8 },
    /// Class 4: the other thread's action keeps the assertion.
    Kept { thread: u8, point: u8, actor: u8, action: u8 },
}

/// All obligations of a program, in the order in which they are judged.
pub fn duties(threads: &[Thread]) -> Vec<Duty> {
    let mut list: Vec<Duty> = numbered(threads).map(|(thread, _)| Duty::Start { thread }).collect();
    for (thread, code) in numbered(threads) {
        for (point, instruction) in (0..).zip(code) {
            if instruction.is_branch() {
                list.push(Duty::Taken { thread, point });
            }
            list.push(Duty::Next { thread, point });
        }
    }
    list.extend(kept(threads));
    list
}

/// Class 4, by acting thread, acting point, asserting thread, asserting point.
fn kept(threads: &[Thread]) -> impl Iterator<Item = Duty> {
    let mut places = Vec::new();
    for (thread, code) in numbered(threads) {
        for point in 0..=code.len() as u8 {
            let actions = actions_of_others(threads, thread);
            places.extend(actions.map(|(actor, action)| (thread, point, actor, action)));
        }
    }
    places.sort_by_key(|&(thread, point, actor, action)| (actor, action, thread, point));
    let kept = |(thread, point, actor, action)| Duty::Kept { thread, point, actor, action };
    places.into_iter().map(kept)
}

fn numbered(threads: &[Thread]) -> impl Iterator<Item = (u8, &Thread)> {
    (1..).zip(threads)
}

/// The points of other threads whose instruction is no branch.
fn actions_of_others(threads: &[Thread], thread: u8) -> impl Iterator<Item = (u8, u8)> + '_ {
    numbered(threads).filter(move |(actor, _)| *actor != thread).flat_map(|(actor, code)| {
        let acting = (0..).zip(code).filter(|(_, instruction)| !instruction.is_branch());
        acting.map(move |(action, _)| (actor, action))
    })
}

impl Duty {
    /// What a line must say to meet the obligation.
    pub fn wanted(&self, program: &Program) -> Statement {
        let at = |thread: u8, point: u8| program.assertion(thread, point).clone();
        match *self {
            Duty::Start { thread } => {
                Statement::Implication { left: Rc::new(Assertion::Start), right: at(thread, 0) }
            }
            Duty::Next { thread, point } => {
                let (left, right) = (at(thread, point), at(thread, point + 1));
                match branch_test(program, thread, point) {
                    None => Statement::Triple { thread, point, left, right },
                    Some((test, _)) => with_test(left, Test::negated(test), right),
                }
            }
            Duty::Taken { thread, point } => {
                let (test, target) = branch_test(program, thread, point).expect("a branch");
                with_test(at(thread, point), test, at(thread, target))
            }
            Duty::Kept { thread, point, actor, action } => Statement::Triple {
                thread: actor,
                point: action,
                left: Rc::new(Assertion::both(at(thread, point), at(actor, action))),
                right: at(thread, point),
            },
        }
    }

    /// The verdict's class, thread, point, other thread and other point.
    fn named(&self) -> Verdict {
        let (class, thread, point, other_thread, other_point) = match *self {
            Duty::Start { thread } => (1, thread, 0, 0, 0),
            Duty::Next { thread, point } => (2, thread, point, 0, 0),
            Duty::Taken { thread, point } => (3, thread, point, 0, 0),
            Duty::Kept { thread, point, actor, action } => (4, thread, point, actor, action),
        };
        Verdict {
            class,
            thread: thread.into(),
            point: point.into(),
            other_thread: other_thread.into(),
            other_point: other_point.into(),
            ..Verdict::default()
        }
    }
}

/// The test and target of the branch at a point, if there is a branch.
fn branch_test(program: &Program, thread: u8, point: u8) -> Option<(Rc<Test>, u8)> {
    match program.instruction(thread, point) {
        Some(Instruction::Branch { test, target }) => Some((test.clone(), *target)),
        _ => None,
    }
}

/// The implication of a branch: assertion and test give the assertion reached.
fn with_test(left: Rc<Assertion>, test: impl Into<Rc<Test>>, right: Rc<Assertion>) -> Statement {
    let left = Rc::new(Assertion::both(left, Assertion::holds(test)));
    Statement::Implication { left, right }
}

/// Judges the obligations of a decoded image in order.
pub fn judge(image: &Image, justified: &[bool]) -> Verdict {
    let mut count = 0;
    for (duty, &line) in duties(&image.program.threads).iter().zip(&image.obligations) {
        let code = judge_one(image, justified, duty, line);
        if code != 0 {
            return Verdict { code, line, count, ..duty.named() };
        }
        count += 1;
    }
    Verdict { count, ..Verdict::default() }
}

/// The code of one obligation that names this line; 0 if it is met.
pub fn judge_one(image: &Image, justified: &[bool], duty: &Duty, line: u16) -> u16 {
    let Some(index) = usize::from(line).checked_sub(1) else {
        return NO_LINE;
    };
    if !concludes(&image.program, &image.lines[index], duty) {
        return OTHER_CONCLUSION;
    }
    if justified[index] {
        0
    } else {
        UNJUSTIFIED
    }
}

/// Whether the line says what the obligation wants. At a pair's point only rule 50 speaks of the whole pair.
fn concludes(program: &Program, line: &Line, duty: &Duty) -> bool {
    let about_pair = program.is_pair(line.statement.place());
    line.statement == duty.wanted(program) && (line.rule == rules::OF_PAIR || !about_pair)
}
