//! Messages about obligations and claims that stay open.

use crate::build::{Goal, Open};
use crate::text::print::Names;
use crate::text::source::Source;
use reference::checker::obligations::Duty;
use reference::checker::rules::before_notes;
use reference::image::{Meeting, Statement};
use std::fmt::Write;
use std::slice;

/// A thread's point with its name, and where there is a source its label and its line.
pub fn point(names: &Names, source: Option<&Source>, t: u8, p: u8) -> String {
    let line = source.map(|s| s.points[usize::from(t) - 1][usize::from(p)].line);
    let line = line.map(|line| format!("line {line}"));
    let known: Vec<String> = names.label(t, p).map(String::from).into_iter().chain(line).collect();
    let known = if known.is_empty() { String::new() } else { format!(" ({})", known.join(", ")) };
    format!("thread {t} ({}) point {p}{known}", names.thread(t))
}

/// An open obligation or claim, in words.
pub fn goal(source: &Source, goal: &Goal) -> String {
    place(source, goal)
}

/// An open obligation or claim, in words.
fn place(source: &Source, goal: &Goal) -> String {
    match goal {
        Goal::Duty(duty) => {
            worded(&source.names, Some(source), duty, ["not given by the start", "not kept by"])
        }
        Goal::Claim(meeting) => claim(&source.names, Some(source), meeting),
    }
}

/// A claim, in words.
pub fn claim(names: &Names, source: Option<&Source>, meeting: &Meeting) -> String {
    let Meeting { thread, point: at, other_thread, other_point } = *meeting;
    let (one, other) =
        (point(names, source, thread, at), point(names, source, other_thread, other_point));
    format!("claim, never {one} and {other}")
}

/// An obligation, in words.
pub fn duty(names: &Names, source: Option<&Source>, duty: &Duty) -> String {
    worded(names, source, duty, ["given by the start", "kept by"])
}

fn worded(names: &Names, source: Option<&Source>, duty: &Duty, [given, kept]: [&str; 2]) -> String {
    let at = |t: u8, p: u8| point(names, source, t, p);
    match *duty {
        Duty::Start { thread } => format!("class 1, {}: {given}", at(thread, 0)),
        Duty::Next { thread, point } => {
            format!("class 2, {}: the step to the next point", at(thread, point))
        }
        Duty::Taken { thread, point } => {
            format!("class 3, {}: the branch taken", at(thread, point))
        }
        Duty::Kept { thread, point, actor, action } => {
            format!("class 4, {}: {kept} {}", at(thread, point), at(actor, action))
        }
    }
}

/// An open obligation or claim: which one, and in full what is wanted and what was tried.
pub fn open(source: &Source, open: &Open, in_full: bool) -> String {
    let mut text = format!("open: {}\n", place(source, &open.goal));
    if !in_full {
        return text;
    }
    let instruction = match open.wanted {
        Statement::Triple { thread, point, .. } => {
            let code = &source.threads[usize::from(thread) - 1];
            code.get(usize::from(point)).map(|instruction| (thread, instruction))
        }
        _ => None,
    };
    if let Some((thread, instruction)) = instruction {
        let _ = writeln!(text, "  instruction  {}", source.names.instruction(thread, instruction));
    }
    let (left, right) = open.wanted.assertions();
    let _ = writeln!(text, "  from         {}", source.names.assertion(left));
    let _ = writeln!(text, "  to           {}", source.names.assertion(right));
    if let Some(note) = instruction.and_then(|(_, instruction)| instruction.pair_note()) {
        // Rule 50 asks this of the first half, and of it speaks what follows.
        let half = before_notes(right, slice::from_ref(note));
        let _ = writeln!(text, "  first half   to {}", source.names.assertion(&half));
    }
    for line in &open.tried {
        let _ = writeln!(text, "  {line}");
    }
    text
}
