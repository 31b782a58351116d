//! The order of class 4. In images from before it is: asserting thread, its point, acting thread, acting point.

use super::Refusal;
use reference::checker::frames::{OBLIGATIONS, THREAD};
use reference::image::written::{instructions, numbers, Instruction, Record};

const BRANCH: u8 = 6;

/// An obligation of class 4 with its line. The derived order is the one of today.
#[derive(Clone, Copy, PartialEq, Eq, PartialOrd, Ord)]
struct Kept {
    actor: usize,
    action: usize,
    thread: usize,
    point: usize,
    line: u16,
}

/// Moves the lines of class 4 to the order by the acting side.
pub fn order(records: &mut [Record]) -> Result<(), Refusal> {
    let threads = records.iter().filter(|record| record.kind == THREAD);
    let threads = threads.map(|record| instructions(&record.body)).collect::<Option<Vec<_>>>();
    let threads = threads.ok_or(Refusal::Lengths)?;
    let obligations = records.iter_mut().find(|record| record.kind == OBLIGATIONS);
    let body = &mut obligations.ok_or(Refusal::Lengths)?.body;
    let lines = numbers(body).ok_or(Refusal::Lengths)?;
    let (before, class_4) = lines.split_at_checked(others(&threads)).ok_or(Refusal::Lengths)?;
    let places = former_places(&threads);
    if places.len() != class_4.len() {
        return Err(Refusal::Lengths);
    }
    let mut kept: Vec<Kept> =
        places.iter().zip(class_4).map(|(&place, &line)| Kept { line, ..place }).collect();
    kept.sort();
    let moved = before.iter().copied().chain(kept.iter().map(|obligation| obligation.line));
    *body = moved.flat_map(u16::to_le_bytes).collect();
    Ok(())
}

/// How many obligations are of the classes 1 to 3.
fn others(threads: &[Vec<Instruction>]) -> usize {
    let steps =
        |instruction: &Instruction| if instruction.first.operation == BRANCH { 2 } else { 1 };
    threads.len() + threads.iter().flatten().map(steps).sum::<usize>()
}

/// The obligations of class 4 in the earlier order, without their lines.
fn former_places(threads: &[Vec<Instruction>]) -> Vec<Kept> {
    let mut places = Vec::new();
    for (thread, code) in threads.iter().enumerate() {
        for point in 0..=code.len() {
            for (actor, acting) in threads.iter().enumerate().filter(|(actor, _)| *actor != thread)
            {
                let actions = (0..).zip(acting).filter(|(_, one)| one.first.operation != BRANCH);
                places.extend(actions.map(|(action, _)| Kept {
                    actor,
                    action,
                    thread,
                    point,
                    line: 0,
                }));
            }
        }
    }
    places
}
