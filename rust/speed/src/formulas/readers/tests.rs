//! Formulas whose answers were worked out by hand, for all readers.

use super::{by_sets, by_tables};
use crate::formulas::answer::{Answer, Counts, Fault};
use crate::rattle;

const COUNTS: Counts = Counts { threads: 2, words: 3, registers: 4, range: 8 };

fn expect(body: &[u8], answer: Answer) {
    for read in [rattle::formula, by_sets::read, by_tables::read] {
        assert_eq!(read(body, COUNTS), answer, "{body:?}");
    }
}

/// `not` so many times, then `false`.
fn negations(count: usize) -> Vec<u8> {
    let mut body = vec![11; count];
    body.push(8);
    body
}

#[test]
fn each_sort_is_accepted() {
    expect(&[3, 0, 7, 2, 3], Ok(0));
    expect(&[9, 1, 4, 2, 1], Ok(1));
    expect(&[18, 16, 14, 3, 17, 1], Ok(2));
    expect(&[25, 24, 2, 17, 3, 27], Ok(3));
}

#[test]
fn a_number_outside_its_range_is_fault_6() {
    for body in
        [&[0, 8][..], &[1, 0], &[1, 5], &[2, 0], &[2, 4], &[15, 4], &[17, 4], &[24, 3, 17, 1]]
    {
        expect(body, Err(Fault::Range));
    }
}

#[test]
fn an_unknown_unfit_missing_or_further_byte_is_fault_7() {
    for body in [&[][..], &[4], &[32], &[3, 0, 1], &[9, 8, 8], &[0], &[0, 1, 0], &[24, 1, 27]] {
        expect(body, Err(Fault::Form));
    }
}

#[test]
fn words_stand_behind_holds_and_not_under_it() {
    expect(&[28, 9, 1, 1, 0, 1], Ok(3));
    expect(&[28, 9, 2, 1, 0, 1], Err(Fault::Form));
    expect(&[25, 28, 8, 24, 1, 16, 15, 1], Ok(3));
}

#[test]
fn nesting_is_at_most_16() {
    expect(&negations(15), Ok(1));
    expect(&negations(16), Err(Fault::Form));
}

#[test]
fn the_first_fault_from_the_left_is_named() {
    expect(&[9, 0, 8, 8], Err(Fault::Range));
    expect(&[9, 8, 0, 8], Err(Fault::Form));
}
