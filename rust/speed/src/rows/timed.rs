//! What is timed: lines that are true and have as many rows as there may be, so that each row is tried.

use super::claim::Claim;
use super::generate::Generator;
use super::input::{Input, Judge, Kind};
use crate::random::Random;

/// With as many names as there are rows for, registers and words by turns, in two halves: from not (the sum of the
/// first half = the sum of the second), not (the first of one = the first of the other) or so on.
pub fn tests(range: u8) -> Input {
    let names = (1..).take_while(|&names| usize::from(range).pow(names) <= 4096).count() as u8;
    let half = names / 2;
    let all =
        |code: u8, parts: Vec<Vec<u8>>| [vec![code; parts.len() - 1], parts.concat()].concat();
    let name = |index: u8| vec![1 + index % 2, 1 + index / 2];
    let differ = |a: &[u8], b: &[u8]| [&[11, 9], a, b].concat();
    // A name left over is added on both sides.
    let sum = |from: u8| all(3, (from..from + half).chain(2 * half..names).map(name).collect());
    let left = differ(&sum(0), &sum(half));
    let pairs = (0..half).map(|index| differ(&name(index), &name(half + index)));
    let right = all(13, pairs.collect());
    Input::new(Kind::Tests { range }, &[[&left, &right]])
}

/// From start and p, either a or b; for either of these, either of two; from one of these four, c or d.
/// So from start and p, c or d: ten leaves, four premises.
pub fn table() -> Input {
    let both = |a: &[u8], b: &[u8]| [&[25], a, b].concat();
    let either = |a: &[u8], b: &[u8]| [&[26], a, b].concat();
    // It holds that a register is 1; thread 1 sees one x, and then x = 1 for a word x.
    let holds = |register: u8| vec![28, 9, 1, register, 0, 1];
    let sees = |word: u8| vec![24, 1, 18, 17, word, 16, 9, 2, word, 0, 1];
    let first = both(&[27], &sees(1));
    let (a, b) = (holds(1), holds(2));
    let (one, other) = (either(&sees(2), &holds(3)), either(&sees(3), &holds(4)));
    let last = either(&sees(4), &holds(5));
    Input::new(
        Kind::Table,
        &[
            [&first, &last],
            [&first, &either(&a, &b)],
            [&a, &one],
            [&b, &other],
            [&either(&one, &other), &last],
        ],
    )
}

/// So many random ones that are true and have as many rows as there may be.
pub fn several(random: &mut Random, count: usize, input: Generator, judge: Judge) -> Vec<Input> {
    let inputs = std::iter::repeat_with(|| input(random));
    let largest =
        |input: &Input| Claim::new(input).rows(input.kind) == Some(input.kind.most_rows());
    inputs.filter(|input| largest(input) && judge(input)).take(count).collect()
}
