//! Random formulas in prefix form, by sort: 0 value, 1 test, 2 interval, 3 assertion; and damage to them.

use super::answer::HIGHEST;
use crate::random::Random;

/// A formula record has at most so many bytes.
pub const LONGEST: usize = 255;

/// What the formulas may name, and whether `start` may stand in them.
pub struct Names {
    pub threads: u8,
    pub words: u8,
    pub registers: Vec<u8>,
    pub range: u8,
    pub start: bool,
}

impl Names {
    /// All that there may be.
    pub fn all() -> Names {
        let n = HIGHEST;
        Names {
            threads: n.threads,
            words: n.words,
            registers: (1..=n.registers).collect(),
            range: n.range,
            start: true,
        }
    }
}

/// Appends a formula of the sort, nested at most `left` deep, or one deeper where `start` may not
/// stand; with `plain` it has no words.
pub fn append(
    random: &mut Random,
    names: &Names,
    sort: u8,
    plain: bool,
    left: usize,
    out: &mut Vec<u8>,
) {
    let codes: &[u8] = match (sort, plain, left > 1) {
        (0, false, true) => &[0, 1, 2, 0, 1, 2, 3],
        (0, false, false) => &[0, 1, 2],
        (0, true, true) => &[0, 1, 0, 1, 3],
        (0, true, false) => &[0, 1],
        (1, false, true) => &[8, 9, 10, 11, 12, 13, 14, 15],
        (1, true, true) => &[8, 9, 10, 11, 12, 13],
        (1, _, false) => &[8],
        (2, _, true) => &[16, 17, 18, 19, 20],
        (2, _, false) => &[17],
        (_, _, true) => &[24, 25, 26, 27, 28],
        _ => &[27],
    };
    let code = match codes[random.below(codes.len())] {
        1 if names.registers.is_empty() => 0,
        code => code,
    };
    if code == 27 && !names.start {
        // It holds that false.
        out.extend([28, 8]);
        return;
    }
    out.push(code);
    match code {
        0 => out.push(random.below(names.range as usize) as u8),
        1 => out.push(names.registers[random.below(names.registers.len())]),
        2 | 14 | 15 | 17 => out.push(1 + random.below(names.words as usize) as u8),
        24 => out.push(1 + random.below(names.threads as usize) as u8),
        _ => {}
    }
    let (parts, inner) = match code {
        3 | 9 | 10 => (2, 0),
        12 | 13 => (2, 1),
        11 | 16 | 28 => (1, 1),
        18..=20 => (2, 2),
        24 => (1, 2),
        25 | 26 => (2, 3),
        _ => (0, 0),
    };
    for _ in 0..parts {
        append(random, names, inner, plain || code == 28, left - 1, out);
    }
}

/// A formula that fits in a record.
fn formula(random: &mut Random, sort: u8) -> Vec<u8> {
    let names = Names::all();
    loop {
        let mut bytes = Vec::new();
        append(random, &names, sort, false, 12, &mut bytes);
        if bytes.len() <= LONGEST {
            return bytes;
        }
    }
}

/// Assertions, until they have so many bytes.
pub fn formulas(random: &mut Random, bytes: usize) -> Vec<Vec<u8>> {
    let (mut all, mut length) = (Vec::new(), 0);
    while length < bytes {
        let one = formula(random, 3);
        length += one.len();
        all.push(one);
    }
    all
}

/// Puts the formula under so many more, each with one part or with a leaf on its left.
fn nested(formula: &[u8], sort: u8, times: usize) -> Vec<u8> {
    let head: &[u8] = match sort {
        0 => &[3, 0, 1],
        1 => &[11],
        2 => &[18, 17, 1],
        _ => &[25, 27],
    };
    [&head.repeat(times), formula].concat()
}

/// A formula of any sort, as it is or damaged in one of several ways.
pub fn damaged(random: &mut Random) -> Vec<u8> {
    let sort = random.below(4) as u8;
    let mut body = formula(random, sort);
    let at = random.below(body.len());
    match random.below(6) {
        0 => {}
        // Mostly a code, known or just past the known ones.
        1 => body[at] = random.below(34) as u8,
        2 => body[at] = random.below(256) as u8,
        3 => body.truncate(at),
        4 => body.push(random.below(34) as u8),
        _ => body = nested(&body, sort, random.below(18)),
    }
    body
}
