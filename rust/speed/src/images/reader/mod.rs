//! Readers in Rust, to compare with: codes 2 to 9 and 23 in the order of the verdict table. They allocate
//! nothing, keep no more of an image than where its records start, and differ in how they search a formula
//! for what may not stand in it.

mod claim;
mod frames;
mod header;
mod line;
mod lists;
mod thread;
mod uses;

use super::answer::Answer;
use crate::formulas::answer::{Counts, Fault};
use crate::formulas::readers::by_sets;
use frames::Frames;
use reference::checker::Refusal;
pub use uses::{has_register, ByScan, ByTree, Search};

/// Codes of faults in a body.
const LENGTH: u16 = 5;
const RANGE: u16 = 6;
const FORM: u16 = 7;
const SORT: u16 = 8;
const OWNER: u16 = 9;
const OPERAND: u16 = 23;

/// The code of a body's first fault, if it has one.
type Checked = Result<(), u16>;

/// Fails with the code unless the condition holds.
#[inline(always)]
fn demand(condition: bool, code: u16) -> Checked {
    if condition {
        Ok(())
    } else {
        Err(code)
    }
}

/// The 16-bit number at a position, low byte first.
#[inline(always)]
fn number(bytes: &[u8], at: usize) -> usize {
    u16::from_le_bytes([bytes[at], bytes[at + 1]]) as usize
}

/// The 16-bit numbers of a body that has nothing else.
fn numbers(body: &[u8]) -> impl Iterator<Item = usize> + '_ {
    body.chunks_exact(2).map(|pair| number(pair, 0))
}

fn check_formula(body: &[u8], n: Counts) -> Checked {
    demand((1..=255).contains(&body.len()), LENGTH)?;
    match by_sets::read(body, n) {
        Ok(_) => Ok(()),
        Err(Fault::Range) => Err(RANGE),
        Err(Fault::Form) => Err(FORM),
    }
}

pub fn read<S: Search>(image: &[u8]) -> Answer {
    let frames = Frames::read(image)?;
    let mut record = 0;
    // Checks the body of the next record.
    let mut next = |check: &dyn Fn(&[u8]) -> Checked| {
        record += 1;
        check(frames.body(record)).map_err(|code| Refusal::at(code, record))
    };
    next(&|body| header::check(body, frames.threads))?;
    let n = header::counts(frames.body(1));
    for _ in 0..frames.formulas {
        next(&|body| check_formula(body, n))?;
    }
    for thread in 1..=frames.threads {
        next(&|body| thread::check::<S>(body, thread as u8, n, &frames))?;
    }
    next(&|body| lists::check_outline::<S>(body, &frames))?;
    for before in 0..frames.lines {
        next(&|body| line::check::<S>(body, before, &frames))?;
    }
    next(&|body| lists::check_obligations(body, &frames))?;
    for _ in 0..frames.claims {
        next(&|body| claim::check(body, &frames))?;
    }
    Ok(())
}
