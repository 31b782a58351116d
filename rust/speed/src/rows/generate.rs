//! Random tests and tables; the same ones in each run.

use super::input::{Input, Kind};
use crate::formulas::generate::{append, Names};
use crate::random::Random;

pub type Generator = fn(&mut Random) -> Input;

const TEST: u8 = 1;
const ASSERTION: u8 = 3;

/// Names for one input: few of them, or most would have too many rows.
fn names(random: &mut Random, range: u8) -> Names {
    let registers = random.below(5) as u8;
    Names {
        threads: 1 + random.below(2) as u8,
        words: 1 + random.below(3) as u8,
        registers: (1..=registers).collect(),
        range,
        start: true,
    }
}

fn formula(random: &mut Random, names: &Names, sort: u8) -> Vec<u8> {
    let left = 3 + random.below(6);
    let mut bytes = Vec::new();
    append(random, names, sort, false, left, &mut bytes);
    bytes
}

/// Two formulas under a code.
fn joined(code: u8, a: &[u8], b: &[u8]) -> Vec<u8> {
    [&[code], a, b].concat()
}

/// Two tests, of any range. Of any two the first seldom implies the second, so most are made of the same ones.
pub fn tests(random: &mut Random) -> Input {
    let range = 2 + random.below(15) as u8;
    tests_of(random, range)
}

/// Two tests about values of the usual range.
pub fn usual_tests(random: &mut Random) -> Input {
    tests_of(random, 8)
}

fn tests_of(random: &mut Random, range: u8) -> Input {
    let names = names(random, range);
    let [a, b, c] = [(); 3].map(|()| formula(random, &names, TEST));
    let (not, and, or) = (11, 12, 13);
    let [left, right] = match random.below(6) {
        0 => [joined(and, &a, &b), a],
        1 => [joined(and, &a, &b), joined(or, &c, &b)],
        2 => [joined(and, &joined(or, &a, &b), &[&[not], &a[..]].concat()), b],
        3 => [joined(or, &a, &b), joined(or, &b, &c)],
        4 => [joined(and, &a, &b), joined(and, &b, &a)],
        _ => [a, b],
    };
    Input::new(Kind::Tests { range }, &[[&left, &right]])
}

/// One to five implications between assertions that are made of the same few.
pub fn table(random: &mut Random) -> Input {
    let names = names(random, 8);
    let few = 3 + random.below(4);
    let few: Vec<Vec<u8>> = (0..few).map(|_| formula(random, &names, ASSERTION)).collect();
    let count = 1 + random.below(5);
    let mut side = || {
        let [a, b] = [(); 2].map(|()| &few[random.below(few.len())]);
        match random.below(4) {
            0 => joined(25, a, b),
            1 => joined(26, a, b),
            _ => a.clone(),
        }
    };
    let sides: Vec<[Vec<u8>; 2]> = (0..count).map(|_| [side(), side()]).collect();
    let lent: Vec<[&[u8]; 2]> = sides.iter().map(|[a, b]| [&a[..], &b[..]]).collect();
    Input::new(Kind::Table, &lent)
}
