//! Tests and tables whose answers were worked out by hand, for all functions.

use super::input::{Input, Kind};
use super::{timed, JUDGES};

fn expect(input: &Input, answer: bool) {
    for (name, judge) in JUDGES {
        assert_eq!(judge(input), answer, "{name} on {input:?}");
    }
}

fn tests(left: &[u8], right: &[u8], answer: bool) {
    tests_of(8, left, right, answer);
}

fn tests_of(range: u8, left: &[u8], right: &[u8], answer: bool) {
    expect(&Input::new(Kind::Tests { range }, &[[left, right]]), answer);
}

fn table(implications: &[[&[u8]; 2]], answer: bool) {
    expect(&Input::new(Kind::Table, implications), answer);
}

/// All of the formulas, under a code with two parts.
fn all(code: u8, formulas: &[Vec<u8>]) -> Vec<u8> {
    let mut bytes = vec![code; formulas.len() - 1];
    bytes.extend(formulas.concat());
    bytes
}

/// Thread 1 sees one x, for a word x.
fn sees(word: u8) -> Vec<u8> {
    vec![24, 1, 17, word]
}

/// It holds that a register is 1.
fn holds(register: u8) -> Vec<u8> {
    vec![28, 9, 1, register, 0, 1]
}

#[test]
fn a_smaller_value_is_not_a_greater_one() {
    let (less, not_greater) = ([10, 1, 1, 2, 1], [11, 10, 2, 1, 1, 1]);
    tests(&less, &not_greater, true);
    tests(&not_greater, &less, false);
}

#[test]
fn sums_are_modulo_8() {
    // r < r + 1, but for r = 7.
    let next_is_greater = [10, 1, 1, 3, 1, 1, 0, 1];
    tests(&[10, 1, 1, 0, 7], &next_is_greater, true);
    tests(&[11, 8], &next_is_greater, false);
}

#[test]
fn values_and_sums_are_those_of_the_range() {
    for range in 2..=16 {
        let below_last = [10, 1, 1, 0, range - 1];
        let next_is_greater = [10, 1, 1, 3, 1, 1, 0, 1];
        tests_of(range, &below_last, &next_is_greater, true);
        tests_of(range, &[11, 8], &next_is_greater, false);
        tests_of(range, &[11, 8], &below_last, false);
        tests_of(range, &[11, 8], &[11, 10, 0, range - 1, 1, 1], true);
    }
}

#[test]
fn rows_are_counted_from_the_range() {
    let same = |names: u8| {
        let parts: Vec<Vec<u8>> = (1..=names).map(|name| vec![9, 1, name, 1, name]).collect();
        all(12, &parts)
    };
    for (range, most) in [(2, 12), (3, 7), (5, 5), (8, 4), (16, 3)] {
        tests_of(range, &same(most), &[11, 8], true);
        tests_of(range, &same(most + 1), &[11, 8], false);
    }
}

#[test]
fn flags_are_true_or_false_each_for_itself() {
    tests(&[14, 1], &[13, 15, 1, 14, 1], true);
    tests(&[14, 1], &[15, 1], false);
    tests(&[14, 1], &[14, 2], false);
}

#[test]
fn there_are_at_most_4096_rows() {
    // r = q and x = y, so x = y: four names; a flag beside them is too much.
    let (left, right) = ([12, 9, 1, 1, 1, 2, 9, 2, 1, 2, 2], [9, 2, 1, 2, 2]);
    tests(&left, &right, true);
    tests(&left, &[&[13], &right[..], &[14, 1]].concat(), false);
    let flags = |count| (0..count).map(|i| vec![14 + i / 8, 1 + i % 8]).collect::<Vec<_>>();
    tests(&all(12, &flags(12)), &[14, 1], true);
    tests(&all(12, &flags(13)), &[14, 1], false);
}

#[test]
fn a_line_may_follow_from_nothing() {
    let (a, b) = (sees(1), holds(1));
    let both = all(25, &[a.clone(), b.clone()]);
    table(&[[&both, &a]], true);
    table(&[[&a, &both]], false);
    table(&[[&a, &all(26, &[b.clone(), a.clone()])]], true);
    table(&[[&[28, 8], &b]], true);
    table(&[[&[27], &[27]]], true);
}

#[test]
fn a_line_may_follow_from_its_premises() {
    let (a, b) = (sees(1), holds(1));
    let both = all(25, &[a.clone(), b.clone()]);
    table(&[[&a, &both], [&a, &b]], true);
    table(&[[&a, &both], [&b, &a]], false);
    // From a, b; from not c, not b: from a, c.
    let (c, not_b, not_c) = (holds(2), [28, 11, 9, 1, 1, 0, 1], [28, 11, 9, 1, 2, 0, 1]);
    table(&[[&a, &c], [&not_c, &not_b], [&a, &b]], true);
}

#[test]
fn comparisons_are_the_same_only_if_their_bytes_are() {
    table(&[[&holds(1), &[28, 9, 0, 1, 1, 1]]], false);
    table(&[[&[28, 9, 0, 0, 0, 0], &[28, 8]], [&[27], &[27]]], false);
}

#[test]
fn there_are_at_most_10_leaves() {
    let leaves = |count| (1..=count).map(holds).collect::<Vec<_>>();
    table(&[[&all(25, &leaves(10)), &holds(10)]], true);
    table(&[[&all(25, &leaves(11)), &holds(10)]], false);
    // In line and premises together.
    table(&[[&all(25, &leaves(10)), &holds(10)], [&holds(11), &holds(1)]], false);
}

#[test]
fn there_are_at_most_four_premises() {
    let step = [1, 2, 3, 4, 5, 6].map(holds);
    let chain = |end: usize| {
        let mut chain: Vec<[&[u8]; 2]> = vec![[&step[0], &step[end]]];
        chain.extend((0..end).map(|i| [&step[i][..], &step[i + 1][..]]));
        Input::new(Kind::Table, &chain)
    };
    expect(&chain(4), true);
    expect(&chain(5), false);
    // Without its last byte, the last premise is none.
    let mut cut = chain(4);
    cut.places.pop();
    expect(&cut, false);
    // Of no places at all, the first formula on both sides.
    cut.places.clear();
    expect(&cut, true);
}

#[test]
fn the_timed_lines_are_true() {
    for range in super::RANGES {
        expect(&timed::tests(range), true);
    }
    expect(&timed::table(), true);
}
