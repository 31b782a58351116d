//! Images that have formulas, lines and obligations in one proportion, that of one about as long as
//! an image may be: 500 formulas of 255 bytes, 4,000 lines with four premises, four threads of 16
//! points. So what they cost goes by their length alone. No line is by rows.

use reference::checker::limits::{FORMULAS, LINES, POINTS, REGISTERS, THREADS, WORDS};
use reference::checker::rules::MOST_PREMISES;
use reference::formula::encode::Encode;
use reference::formula::nesting::BYTES;
use reference::formula::parse::Counts;
use reference::formula::{Assertion, Interval, Test, Value};
use reference::image::written::Line;
use reference::image::{Access, Header, Program, Thread};
use sets::generate::harness;

/// The longest has about so many thousand bytes.
pub const LONGEST: usize = 214;
const RANGE: u8 = 8;

/// The image with about so many thousand bytes.
pub fn image(thousands: usize) -> Vec<u8> {
    let mut image = harness::plan(program(points(thousands))).written();
    let share = |own: usize, most: usize| (own + most * thousands / LONGEST).min(most);
    let (first, last) = (image.formulas.len(), share(image.formulas.len(), FORMULAS));
    image.formulas.extend((first..last).map(formula));
    let own = image.lines.len();
    for number in own..share(own, LINES) {
        let about = (first + number % (last - first) + 1) as u16;
        // A truth table asks for what its premises say, needed or not.
        let premises = (own..number).rev().take(MOST_PREMISES).map(|line| line as u16 + 1);
        let premises = premises.collect();
        image.lines.push(Line {
            rule: 20,
            thread: 0,
            point: 0,
            left: about,
            right: about,
            premises,
        });
    }
    image.bytes()
}

/// The points of each thread: obligations grow as their square.
fn points(thousands: usize) -> u8 {
    let pairs = |points: u8| usize::from(points) * usize::from(points - 1);
    let fits = |points: &u8| pairs(*points) * LONGEST <= pairs(POINTS) * thousands;
    (1..=POINTS).take_while(fits).last().expect("one point has no pairs")
}

/// Loads and stores by turns, in every thread.
fn program(points: u8) -> Program {
    let counts = Counts { threads: THREADS, words: WORDS, registers: REGISTERS, range: RANGE };
    let owners = (0..REGISTERS).map(|register| register % THREADS + 1).collect();
    let header = Header::cleared(counts, vec![0; WORDS.into()], owners);
    let instruction = |thread: u8, point: u8| match point % 2 {
        0 => Access::Load { register: thread, word: 1, acquiring: true }.into(),
        _ => Access::Store { word: 2, value: Value::Constant(1).into(), releasing: true }.into(),
    };
    let code = |thread| -> Thread { (1..points).map(|point| instruction(thread, point)).collect() };
    harness::program(header, (1..=THREADS).map(code).collect())
}

/// An assertion of as many bytes as a formula may have, one for each seed.
fn formula(seed: usize) -> Vec<u8> {
    let code_and_thread = 2;
    Assertion::sees(1, interval(seed, 0, BYTES - code_and_thread)).encode()
}

/// A chop of tests with so many bytes; the constant of each is a digit of the seed.
fn interval(seed: usize, place: usize, bytes: usize) -> Interval {
    let (code, shortest) = (1, 6);
    if bytes > 2 * shortest {
        let half = (bytes - code) / 2;
        let rest = bytes - code - half;
        return Interval::chop(
            interval(seed, 2 * place, half),
            interval(seed, 2 * place + 1, rest),
        );
    }
    let word = Value::Word(((seed + place) % usize::from(WORDS)) as u8 + 1);
    let digit = Value::Constant((seed >> (3 * (place % 3)) & 7) as u8);
    let test = (shortest..bytes).fold(Test::equal(word, digit), |test, _| Test::negated(test));
    Interval::all(test)
}

#[cfg(test)]
mod tests {
    use super::*;
    use std::collections::BTreeSet;

    #[test]
    fn each_has_about_the_bytes_that_are_asked_for() {
        for thousands in [1, 4, 16, 64, LONGEST] {
            let bytes = image(thousands).len();
            assert!(bytes.abs_diff(1000 * thousands) <= 50 * thousands, "{thousands}: {bytes}");
        }
    }

    #[test]
    fn formulas_are_as_long_as_they_may_be_and_none_comes_twice() {
        let formulas: BTreeSet<Vec<u8>> = (0..FORMULAS).map(formula).collect();
        assert_eq!(formulas.len(), FORMULAS);
        assert!(formulas.iter().all(|formula| formula.len() == BYTES));
    }
}
