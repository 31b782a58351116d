//! What obligations and claims ask, in words.

use super::parts::{code, formula, point};
use super::{claims, Content};
use crate::judged::Goal;
use crate::markup::{el, of, Element};
use reference::checker::obligations::Duty;
use reference::image::Instruction;

/// What the obligations of a class ask.
pub fn class_title(class: u8) -> &'static str {
    match class {
        1 => "the start gives each thread’s first assertion",
        2 => "an instruction, or a branch not taken, leads to the next point’s assertion",
        3 => "a branch that is taken leads to its target’s assertion",
        _ => "an assertion survives an instruction of another thread",
    }
}

/// The class of an obligation.
pub fn class_of(duty: &Duty) -> u8 {
    match duty {
        Duty::Start { .. } => 1,
        Duty::Next { .. } => 2,
        Duty::Taken { .. } => 3,
        Duty::Kept { .. } => 4,
    }
}

/// The text of the instruction that an obligation is about.
fn instruction(content: &Content, thread: u8, point: u8) -> String {
    let instruction = content.image.program.instruction(thread, point);
    content.words.names.instruction(thread, instruction.expect("an obligation's instruction"))
}

/// What would have to be so.
pub fn goal_words(content: &Content, goal: &Goal) -> String {
    match goal {
        Goal::Duty(duty) => duty_words(content, duty),
        Goal::Claim(meeting) => format!("{} never meet", content.words.names.both(meeting)),
    }
}

fn duty_words(content: &Content, duty: &Duty) -> String {
    let names = &content.words.names;
    let act = |t: u8, p: u8| format!("{}’s “{}”", names.thread(t), instruction(content, t, p));
    match *duty {
        Duty::Start { thread } => {
            format!("the assertion of {} is true at the start", names.at(thread, 0))
        }
        Duty::Next { thread, point } => {
            format!(
                "{} leads from the assertion at {} to that at {}",
                act(thread, point),
                names.point(thread, point),
                names.point(thread, point + 1)
            )
        }
        Duty::Taken { thread, point } => {
            format!(
                "{}, taken at {}, leads to the assertion at its target",
                act(thread, point),
                names.point(thread, point)
            )
        }
        Duty::Kept { thread, point, actor, action } => {
            let at = names.at(thread, point);
            format!("the assertion of {at} survives {}", act(actor, action))
        }
    }
}

/// Which kind of thing is asked.
pub fn kind(goal: &Goal) -> String {
    match goal {
        Goal::Duty(duty) => format!("Class {}: {}.", class_of(duty), class_title(class_of(duty))),
        Goal::Claim(_) => "A claim: two threads are never at these points together.".into(),
    }
}

/// An obligation or a claim in words, its points as links.
pub fn goal_element(content: &Content, goal: &Goal) -> Element {
    match goal {
        Goal::Duty(duty) => duty_element(content, duty).text("."),
        Goal::Claim(meeting) => claims::sentence(content, meeting),
    }
}

/// An obligation in words, its points as links.
pub fn duty_element(content: &Content, duty: &Duty) -> Element {
    let (names, program) = (&content.words.names, &content.image.program);
    let at = |t: u8, p: u8| point(names, t, p);
    let act = |t: u8, p: u8| code(&instruction(content, t, p));
    let out = el("span");
    match *duty {
        Duty::Start { thread } => out.text("The start gives ").child(at(thread, 0)),
        Duty::Next { thread, point } => {
            let branch = program.instruction(thread, point).is_some_and(|i| i.is_branch());
            let way = if branch { ", not taken, leads from " } else { " leads from " };
            let out = out.child(act(thread, point)).text(way).child(at(thread, point));
            out.text(format!(" to {}", names.point(thread, point + 1)))
        }
        Duty::Taken { thread, point } => {
            let out = out.child(act(thread, point)).text(", taken, leads from ");
            out.child(at(thread, point)).text(" to its target")
        }
        Duty::Kept { thread, point, actor, action } => {
            let out = out.child(at(thread, point)).text(" survives ").child(act(actor, action));
            out.text(" of ").child(at(actor, action))
        }
    }
}

/// What a line would have to say, in the outline's own words.
pub fn wanted(content: &Content, goal: &Goal) -> Element {
    let at = |t: u8, p: u8| formula(&content.words, content.words.assertion(t, p));
    let rows = match *goal {
        Goal::Duty(duty) => duty_rows(content, duty, at),
        Goal::Claim(meeting) => vec![
            ("from", at(meeting.thread, meeting.point)),
            ("and", at(meeting.other_thread, meeting.other_point)),
            ("to", code("false")),
        ],
    };
    let row = |(name, value): (&str, Element)| [el("dt").text(name), el("dd").child(value)];
    of("dl", "wanted").all(rows.into_iter().flat_map(row))
}

/// What an obligation starts from, by which instruction, and where it leads.
fn duty_rows(
    content: &Content,
    duty: Duty,
    at: impl Fn(u8, u8) -> Element,
) -> Vec<(&'static str, Element)> {
    let act = |t: u8, p: u8| code(&instruction(content, t, p));
    let step =
        |t: u8, p: u8, to: u8| vec![("from", at(t, p)), ("by", act(t, p)), ("to", at(t, to))];
    match duty {
        Duty::Start { thread } => vec![("from", code("start")), ("to", at(thread, 0))],
        Duty::Next { thread, point } => step(thread, point, point + 1),
        Duty::Taken { thread, point } => {
            let branch = content.image.program.instruction(thread, point);
            let Some(Instruction::Branch { target, .. }) = branch else { return Vec::new() };
            step(thread, point, *target)
        }
        Duty::Kept { thread, point, actor, action } => vec![
            ("from", at(thread, point)),
            ("and", at(actor, action)),
            ("by", act(actor, action)),
            ("to", at(thread, point)),
        ],
    }
}
