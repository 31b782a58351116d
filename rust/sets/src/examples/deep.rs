//! Long intervals.

use reference::formula::{Interval, Test, Value};

/// Words that the intervals speak of.
const WORDS: usize = 6;

/// A chop of so many intervals, nested to the right. With three parts and more, 512 seeds give as many intervals.
pub fn chops(seed: usize, parts: usize) -> Interval {
    let last = part(seed, parts - 1);
    (0..parts - 1).rev().fold(last, |rest, place| Interval::chop(part(seed, place), rest))
}

/// both(one x, [a test of x]); its constant is a digit of the seed.
fn part(seed: usize, place: usize) -> Interval {
    let word = ((seed + place) % WORDS) as u8 + 1;
    let constant = Value::Constant((seed >> (3 * (place % 3)) & 7) as u8);
    let test = match (seed + place) % 3 {
        0 => Test::equal(Value::Word(word), constant),
        1 => Test::negated(Test::less(Value::Word(word), constant)),
        _ => Test::or(Test::Unsync(word), Test::equal(Value::Word(word), constant)),
    };
    Interval::both(Interval::One(word), Interval::all(test))
}
