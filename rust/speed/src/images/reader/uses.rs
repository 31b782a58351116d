//! What a formula has to be where it is used. The formulas passed the reader.

pub const VALUE: u8 = 0;
pub const TEST: u8 = 1;
pub const INTERVAL: u8 = 2;
pub const ASSERTION: u8 = 3;

const REGISTER: u8 = 1;
const START: u8 = 27;

/// How a formula is searched: whether a code in it, with its operand (0 for none), is as asked.
pub trait Search {
    fn any(body: &[u8], sought: impl Fn(u8, u8) -> bool + Copy) -> bool;
}

/// The code at a position, its operand and where its parts begin.
#[inline(always)]
fn node(body: &[u8], at: usize) -> (u8, u8, usize) {
    match body[at] {
        code @ (0 | 1 | 2 | 14 | 15 | 17 | 24) => (code, body[at + 1], at + 2),
        code => (code, 0, at + 1),
    }
}

/// Part by part, the way the Rattle reader goes.
pub struct ByTree;

/// The end of the formula at a position, if nothing in it is as asked.
fn end(body: &[u8], at: usize, sought: impl Fn(u8, u8) -> bool + Copy) -> Option<usize> {
    let (code, operand, mut next) = node(body, at);
    if sought(code, operand) {
        return None;
    }
    let parts = match code {
        11 | 16 | 24 | 28 => 1,
        3 | 9 | 10 | 12 | 13 | 18 | 19 | 20 | 25 | 26 => 2,
        _ => 0,
    };
    for _ in 0..parts {
        next = end(body, next, sought)?;
    }
    Some(next)
}

impl Search for ByTree {
    fn any(body: &[u8], sought: impl Fn(u8, u8) -> bool + Copy) -> bool {
        end(body, 0, sought).is_none()
    }
}

/// From the left to the right: a search needs no tree.
pub struct ByScan;

impl Search for ByScan {
    fn any(body: &[u8], sought: impl Fn(u8, u8) -> bool + Copy) -> bool {
        let mut at = 0;
        while at < body.len() {
            let (code, operand, next) = node(body, at);
            if sought(code, operand) {
                return true;
            }
            at = next;
        }
        false
    }
}

/// A code's sort is its eighth.
pub fn is_sort(body: &[u8], sort: u8) -> bool {
    body[0] / 8 == sort
}

/// An assertion without `start`.
pub fn is_outlined<S: Search>(body: &[u8]) -> bool {
    is_sort(body, ASSERTION) && !S::any(body, |code, _| code == START)
}

/// A formula of the sort without words.
pub fn is_plain_of<S: Search>(body: &[u8], sort: u8) -> bool {
    is_sort(body, sort) && !S::any(body, |code, _| matches!(code, 2 | 14 | 15 | 17))
}

/// Whether it has a register that the thread does not own.
pub fn has_foreign<S: Search>(body: &[u8], thread: u8, owners: &[u8]) -> bool {
    S::any(body, |code, operand| code == REGISTER && owners[operand as usize - 1] != thread)
}

/// Whether it has this register.
pub fn has_register<S: Search>(body: &[u8], register: u8) -> bool {
    S::any(body, |code, operand| code == REGISTER && operand == register)
}
