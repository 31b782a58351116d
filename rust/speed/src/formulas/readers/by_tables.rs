//! By tables with an entry for each code.

use super::whole;
use crate::formulas::answer::{Answer, Counts, Fault, NESTING};

const NONE: u8 = 9;

#[rustfmt::skip]
const SORT: [u8; 32] = [
    0, 0, 0, 0, NONE, NONE, NONE, NONE, 1, 1, 1, 1, 1, 1, 1, 1,
    2, 2, 2, 2, 2, NONE, NONE, NONE, 3, 3, 3, 3, 3, NONE, NONE, NONE,
];
/// What the operand is: 0 none, 1 a value, 2 a register, 3 a word, 4 a thread.
#[rustfmt::skip]
const OPERAND: [u8; 32] = [
    1, 2, 3, 0, 0, 0, 0, 0, 0, 0, 0, 0, 0, 0, 3, 3,
    0, 3, 0, 0, 0, 0, 0, 0, 4, 0, 0, 0, 0, 0, 0, 0,
];
#[rustfmt::skip]
const PARTS: [u8; 32] = [
    0, 0, 0, 2, 0, 0, 0, 0, 0, 2, 2, 1, 2, 2, 0, 0,
    1, 0, 2, 2, 2, 0, 0, 0, 1, 2, 2, 0, 1, 0, 0, 0,
];
/// The sort of the parts.
#[rustfmt::skip]
const INNER: [u8; 32] = [
    0, 0, 0, 0, 0, 0, 0, 0, 0, 0, 0, 1, 1, 1, 0, 0,
    1, 0, 2, 2, 2, 0, 0, 0, 2, 3, 3, 0, 1, 0, 0, 0,
];
const HOLDS: usize = 28;

pub fn read(body: &[u8], n: Counts) -> Answer {
    whole(body, |sort| end(body, 0, NESTING, sort, false, &n))
}

/// The end of the formula at a position, nested at most `left` deep. With `plain`, as under `holds`,
/// it has no words.
fn end(
    s: &[u8],
    at: usize,
    left: usize,
    sort: u8,
    plain: bool,
    n: &Counts,
) -> Result<usize, Fault> {
    if left == 0 {
        return Err(Fault::Form);
    }
    let code = *s.get(at).ok_or(Fault::Form)? as usize;
    if code >= 32 || SORT[code] != sort || (plain && matches!(code, 2 | 14 | 15)) {
        return Err(Fault::Form);
    }
    let mut next = at + 1;
    if OPERAND[code] != 0 {
        let operand = *s.get(next).ok_or(Fault::Form)?;
        let (low, high) = match OPERAND[code] {
            1 => (0, n.range - 1),
            2 => (1, n.registers),
            3 => (1, n.words),
            _ => (1, n.threads),
        };
        if operand < low || operand > high {
            return Err(Fault::Range);
        }
        next += 1;
    }
    for _ in 0..PARTS[code] {
        next = end(s, next, left - 1, INNER[code], plain || code == HOLDS, n)?;
    }
    Ok(next)
}
