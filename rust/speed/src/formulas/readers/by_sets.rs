//! By sets of codes, a bit for each, the way the Rattle reader goes.

use super::whole;
use crate::formulas::answer::{Answer, Counts, Fault, NESTING};

const fn set(codes: &[u8]) -> u32 {
    let (mut bits, mut i) = (0, 0);
    while i < codes.len() {
        bits |= 1 << codes[i];
        i += 1;
    }
    bits
}

/// What may stand at a place: a sort, or 4 or 5 for a value or a test of registers alone.
const AT: [u32; 6] = [
    set(&[0, 1, 2, 3]),
    set(&[8, 9, 10, 11, 12, 13, 14, 15]),
    set(&[16, 17, 18, 19, 20]),
    set(&[24, 25, 26, 27, 28]),
    set(&[0, 1, 3]),
    set(&[8, 9, 10, 11, 12, 13]),
];
const WITH_OPERAND: u32 = set(&[0, 1, 2, 14, 15, 17, 24]);
const ONE_PART: u32 = set(&[11, 16, 24, 28]);
const TWO_PARTS: u32 = set(&[3, 9, 10, 12, 13, 18, 19, 20, 25, 26]);
/// Those whose parts are of the sort below.
const LOWER_PARTS: u32 = set(&[9, 10, 16, 24]);
const HOLDS: u8 = 28;
const REG_TEST: u8 = 5;

pub fn read(body: &[u8], n: Counts) -> Answer {
    whole(body, |sort| end(body, 0, NESTING, sort, n))
}

fn has(set: u32, code: u8) -> bool {
    code < 32 && (set >> code) % 2 == 1
}

fn in_range(n: Counts, code: u8, operand: u8) -> bool {
    match code {
        0 => operand < n.range,
        _ if operand == 0 => false,
        1 => operand <= n.registers,
        24 => operand <= n.threads,
        _ => operand <= n.words,
    }
}

/// The end of the formula at a position, nested at most `left` deep.
fn end(s: &[u8], at: usize, left: usize, place: u8, n: Counts) -> Result<usize, Fault> {
    if left == 0 {
        return Err(Fault::Form);
    }
    let code = *s.get(at).ok_or(Fault::Form)?;
    if !has(AT.get(place as usize).copied().unwrap_or(0), code) {
        return Err(Fault::Form);
    }
    let mut next = at + 1;
    if has(WITH_OPERAND, code) {
        if !in_range(n, code, *s.get(next).ok_or(Fault::Form)?) {
            return Err(Fault::Range);
        }
        next += 1;
    }
    if !has(ONE_PART | TWO_PARTS, code) {
        return Ok(next);
    }
    let inner = if code == HOLDS { REG_TEST } else { place - has(LOWER_PARTS, code) as u8 };
    next = end(s, next, left - 1, inner, n)?;
    if has(ONE_PART, code) {
        return Ok(next);
    }
    end(s, next, left - 1, inner, n)
}
