//! A thread's record: its points, then an instruction of five or ten bytes for each but the last.

use super::frames::Frames;
use super::uses::{has_foreign, has_register, is_plain_of, Search, TEST, VALUE};
use super::{demand, header, number, Checked, LENGTH, OPERAND, OWNER, RANGE, SORT};
use crate::formulas::answer::Counts;

const HALF: usize = 5;
const BRANCH: u8 = 6;

/// The five bytes of an instruction, or of one half of it.
#[derive(Clone, Copy)]
struct Half {
    operation: u8,
    a: u8,
    b: u8,
    formula: usize,
}

/// Whether an instruction with this operation has a second half.
fn has_second(operation: u8) -> bool {
    (9..=12).contains(&operation)
}

/// Where the instructions of so many points end, 0 points counted as 1; none if one begins past the body's end.
fn end(body: &[u8], points: u8) -> Option<usize> {
    let mut at = 1;
    for _ in 1..points {
        at += if has_second(*body.get(at)?) { 2 * HALF } else { HALF };
    }
    Some(at)
}

/// Each instruction's halves, of a body that ends with an instruction.
fn instructions(body: &[u8]) -> impl Iterator<Item = (Half, Option<Half>)> + '_ {
    let mut at = 1;
    let mut next = move || {
        let bytes = body.get(at..at + HALF)?;
        at += HALF;
        let [operation, a, b] = [bytes[0], bytes[1], bytes[2]];
        Some(Half { operation, a, b, formula: number(bytes, 3) })
    };
    std::iter::from_fn(move || {
        let first = next()?;
        let second = if has_second(first.operation) { next() } else { None };
        Some((first, second))
    })
}

fn halves(body: &[u8]) -> impl Iterator<Item = Half> + '_ {
    instructions(body).flat_map(|(first, second)| [first].into_iter().chain(second))
}

impl Half {
    /// Whether this is the second half of an instruction that begins so.
    fn follows(self, first: Half) -> bool {
        self.operation == 0 && !(first.operation == 12 && first.a == self.a)
    }

    fn fits(self, points: u8, n: Counts, frames: &Frames) -> bool {
        let register = |field: u8| (1..=n.registers).contains(&field);
        let word = |field: u8| (1..=n.words).contains(&field);
        let formula = frames.has_formula(self.formula);
        match self.operation {
            0 | 12 => register(self.a) && self.b == 0 && formula,
            1 | 2 => register(self.a) && word(self.b) && self.formula == 0,
            3..=5 | 9..=11 => word(self.a) && self.b == 0 && formula,
            BRANCH => self.a < points && self.b == 0 && formula,
            7 | 8 => word(self.a) && register(self.b) && formula,
            _ => false,
        }
    }

    /// The register that is set; 0 for none.
    fn result(self) -> u8 {
        match self.operation {
            0..=2 | 12 => self.a,
            7 | 8 => self.b,
            _ => 0,
        }
    }

    /// A load has no formula; any other has one, over registers alone.
    fn is_sorted<S: Search>(self, frames: &Frames) -> bool {
        let sort = if self.operation == BRANCH { TEST } else { VALUE };
        self.formula == 0 || is_plain_of::<S>(frames.formula(self.formula), sort)
    }

    fn is_owned<S: Search>(self, thread: u8, owners: &[u8], frames: &Frames) -> bool {
        let result = self.result();
        (result == 0 || owners[result as usize - 1] == thread)
            && (self.formula == 0
                || !has_foreign::<S>(frames.formula(self.formula), thread, owners))
    }

    /// Whether an exchange or fetch-add has its result register in its operand.
    fn names_result<S: Search>(self, frames: &Frames) -> bool {
        matches!(self.operation, 7 | 8) && has_register::<S>(frames.formula(self.formula), self.b)
    }
}

pub fn check<S: Search>(body: &[u8], thread: u8, n: Counts, frames: &Frames) -> Checked {
    demand(!body.is_empty(), LENGTH)?;
    let points = body[0];
    demand(end(body, points) == Some(body.len()), LENGTH)?;
    demand((1..=16).contains(&points), RANGE)?;
    let fits = |half: Half| half.fits(points, n, frames);
    let in_range = |(first, second): (Half, Option<Half>)| {
        fits(first) && second.is_none_or(|half| half.follows(first) && fits(half))
    };
    demand(instructions(body).all(in_range), RANGE)?;
    demand(halves(body).all(|half| half.is_sorted::<S>(frames)), SORT)?;
    let owners = header::owners(frames.body(1));
    demand(halves(body).all(|half| half.is_owned::<S>(thread, owners, frames)), OWNER)?;
    demand(!halves(body).any(|half| half.names_result::<S>(frames)), OPERAND)
}

/// How many points a thread that passed has.
pub fn points(body: &[u8]) -> usize {
    body[0] as usize
}

/// How many branches a thread that passed has.
pub fn branches(body: &[u8]) -> usize {
    instructions(body).filter(|(first, _)| first.operation == BRANCH).count()
}

/// Whether a thread that passed has an instruction at a point, and that is no branch.
pub fn has_action(body: &[u8], point: usize) -> bool {
    instructions(body).nth(point).is_some_and(|(first, _)| first.operation != BRANCH)
}
