//! A breaking run as text: each step with its value, the state reached, the false assertion or claim.

use super::search::{Break, Fault};
use crate::image::{Access, Instruction, Meeting, Note, Program};
use crate::machine::{take, State, Step, Write};
use std::fmt::Write as _;

/// Describes a breaking run, line by line.
pub fn describe(program: &Program, broken: &Break) -> String {
    let mut text = format!("breaks after {} steps\n", broken.run.len());
    let mut state = broken.start.clone();
    if program.header.marks.contains(&0) {
        let _ = writeln!(text, "     starts with registers {:?}", state.registers);
    }
    for (number, &step) in (1..).zip(&broken.run) {
        let _ = writeln!(text, "{number:>3}. {}", describe_step(program, &state, step));
        state = take(&program.threads, &state, step).expect("a step of the run");
    }
    text += &describe_state(&state);
    let _ = writeln!(text, "{}", describe_fault(program, &state, broken.fault));
    text
}

fn describe_fault(program: &Program, state: &State, fault: Fault) -> String {
    match fault {
        Fault::Assertion { thread } => {
            let point = state.points[usize::from(thread) - 1];
            let assertion = program.assertion(thread, point);
            format!("false: thread {thread} at point {point}: {assertion}")
        }
        Fault::Claim(meeting) => {
            let Meeting { thread, point, other_thread, other_point } = meeting;
            let other = format!("thread {other_thread} at point {other_point}");
            format!("claimed never to happen: thread {thread} at point {point}, {other}")
        }
    }
}

fn describe_step(program: &Program, state: &State, step: Step) -> String {
    let point = state.points[usize::from(step.thread) - 1];
    let instruction = program.instruction(step.thread, point).expect("an instruction");
    let after = take(&program.threads, state, step).expect("a step of the run");
    let done = match instruction {
        Instruction::Act { access, notes } => {
            let access = access.iter().map(|access| describe_access(access, state, step, &after));
            let notes = notes.iter().map(|note| describe_note(note, &after));
            access.chain(notes).collect::<Vec<String>>().join(", with ")
        }
        Instruction::Branch { test, .. } => {
            let next = after.points[usize::from(step.thread) - 1];
            format!("branch on {test} goes to point {next}")
        }
    };
    format!("thread {} at point {point}: {done}", step.thread)
}

fn describe_note(note: &Note, after: &State) -> String {
    let Note { register, value } = note;
    format!("r{register} := {value}, which is {}", after.registers[usize::from(*register) - 1])
}

fn describe_access(access: &Access, state: &State, step: Step, after: &State) -> String {
    let word = access.word();
    let position = step.position;
    let read = state.row(word)[position].value;
    let written = || after.row(word)[position + 1].value;
    let fetched = |kind: &str, register: u8| {
        format!("{kind} w{word} := {} covers {position}, r{register} := {read}", written())
    };
    match access {
        Access::Load { register, acquiring, .. } => {
            let kind = if *acquiring { "acquiring" } else { "relaxed" };
            format!("{kind} load r{register} := w{word} reads {read} at {position}")
        }
        Access::Store { releasing, .. } => {
            let kind = if *releasing { "releasing" } else { "relaxed" };
            format!("{kind} store w{word} := {} behind {position}", written())
        }
        Access::Swap { .. } => format!("swap w{word} := {} covers {position}", written()),
        Access::Exchange { register, .. } => fetched("exchange", *register),
        Access::FetchAdd { register, .. } => fetched("fetch-add", *register),
    }
}

fn describe_state(state: &State) -> String {
    let mut text = String::from("state\n");
    let words = state.rows.len();
    for (word, row) in (1..).zip(&state.rows) {
        let writes: Vec<String> = row.iter().map(|write| describe_write(write, words)).collect();
        let _ = writeln!(text, "     w{word}: {}", writes.join(", "));
    }
    for (thread, (view, point)) in (1..).zip(state.views.iter().zip(&state.points)) {
        let view = &view.0[..words];
        let _ = writeln!(text, "     thread {thread}: at point {point}, view {view:?}");
    }
    let _ = writeln!(text, "     registers: {:?}", state.registers);
    text
}

fn describe_write(write: &Write, words: usize) -> String {
    let mut text = write.value.to_string();
    if write.releasing {
        let _ = write!(text, " releasing {:?}", &write.stored.0[..words]);
    }
    if write.covered {
        text += " covered";
    }
    text
}
