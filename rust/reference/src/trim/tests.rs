//! Trimmed images worked out by hand: what is kept and the new numbers stand in the tests, not in a program's output.
use super::{trim_into, trimmed, Answer};
use crate::checker::{check, decode};
use crate::explore::{explore, Bounds, Outcome};
use crate::image::written::{image_bytes, Record};

const TRUE: &[u8] = &[28, 11, 8];
const FALSE: &[u8] = &[28, 8];
const START: &[u8] = &[27];

/// Bodies of records that an image has many of.
type Bodies<'a> = &'a [&'a [u8]];

/// An image by its bodies.
struct Parts<'a> {
    header: &'a [u8],
    formulas: Bodies<'a>,
    threads: Bodies<'a>,
    outline: &'a [u16],
    lines: Vec<Vec<u8>>,
    obligations: &'a [u16],
    claims: Bodies<'a>,
}

fn numbers(numbers: &[u16]) -> Vec<u8> {
    numbers.iter().flat_map(|number| number.to_le_bytes()).collect()
}

/// A line that is about no instruction.
fn line(rule: u8, left: u16, right: u16, premises: &[u16]) -> Vec<u8> {
    at((0, 0), rule, left, right, premises)
}

/// A line about the instruction at a thread's point.
fn at(place: (u8, u8), rule: u8, left: u16, right: u16, premises: &[u16]) -> Vec<u8> {
    let mut body = vec![rule, place.0, place.1];
    body.extend(numbers(&[left, right]));
    body.push(premises.len() as u8);
    body.extend(numbers(premises));
    body
}

impl Parts<'_> {
    fn bytes(&self) -> Vec<u8> {
        let many = |kind, bodies: Bodies| -> Vec<Record> {
            bodies.iter().map(|&body| Record::new(kind, body)).collect()
        };
        let mut records = vec![Record::new(1, self.header)];
        records.extend(many(2, self.formulas));
        records.extend(many(3, self.threads));
        records.push(Record::new(4, numbers(self.outline)));
        records.extend(self.lines.iter().map(|body| Record::new(5, body.clone())));
        records.push(Record::new(6, numbers(self.obligations)));
        records.extend(many(8, self.claims));
        image_bytes(&records)
    }
}

/// One thread of one point; every assertion is "true" and follows from the start.
fn one_point<'a>(
    formulas: Bodies<'a>,
    outline: &'a [u16],
    lines: Vec<Vec<u8>>,
    obligations: &'a [u16],
) -> Vec<u8> {
    let header = &[1, 1, 0, 8, 0];
    Parts { header, formulas, threads: &[&[1]], outline, lines, obligations, claims: &[] }.bytes()
}

/// The scope page's small image.
fn small() -> Vec<u8> {
    one_point(&[TRUE, START], &[1], vec![line(20, 2, 1, &[])], &[1])
}

/// Trims, and sees to it that the result is accepted with the same count and that trimming it changes nothing.
fn trim_twice(image: &[u8]) -> Vec<u8> {
    let verdict = check(image);
    assert_eq!(verdict.code, 0, "{verdict}");
    let result = trimmed(image).expect("accepted");
    assert_eq!(check(&result), verdict);
    assert_eq!(trimmed(&result).as_ref(), Some(&result));
    result
}

#[test]
fn nothing_to_trim() {
    assert_eq!(trim_twice(&small()), small());
}

#[test]
fn a_chain_of_dead_lines() {
    // Lines 1, 3 and 4 are dead, though 3 names 1 and 4 names 3 and the line that is kept. Formulas 1 and 4 are
    // named by dead lines alone, 5 by nothing.
    let image = one_point(
        &[FALSE, TRUE, START, &[28, 11, 11, 8], &[17, 1]],
        &[2],
        vec![
            line(20, 1, 2, &[]),
            line(20, 3, 2, &[]),
            line(20, 1, 2, &[1]),
            line(20, 4, 2, &[3, 2]),
        ],
        &[2],
    );
    assert_eq!(trim_twice(&image), small());
}

#[test]
fn a_dead_line_that_is_unjustified() {
    let lines = vec![line(20, 1, 3, &[]), line(20, 2, 1, &[])];
    assert_eq!(trim_twice(&one_point(&[TRUE, START, FALSE], &[1], lines, &[2])), small());
}

#[test]
fn premises_are_kept_to_the_last() {
    // Line 5 rests on 4 and lists 2, which it does not need; 4 rests on 1. Line 3 is dead.
    let lines = vec![
        line(20, 2, 1, &[]),
        line(20, 3, 1, &[]),
        line(20, 4, 1, &[]),
        line(20, 2, 1, &[1]),
        line(20, 2, 1, &[4, 2]),
    ];
    let image = one_point(&[TRUE, START, FALSE, &[28, 11, 11, 8]], &[1], lines, &[5]);
    let kept = vec![
        line(20, 2, 1, &[]),
        line(20, 3, 1, &[]),
        line(20, 2, 1, &[1]),
        line(20, 2, 1, &[3, 2]),
    ];
    assert_eq!(trim_twice(&image), one_point(&[TRUE, START, FALSE], &[1], kept, &[4]));
}

#[test]
fn equal_formulas_and_equal_lines_stay_two() {
    // Formula 2 is dead; 1, 3 and 4 have the same bytes, and each is named. Lines 1 and 2 have the same bytes.
    let lines = vec![
        line(20, 5, 3, &[]),
        line(20, 5, 3, &[]),
        line(20, 5, 1, &[2, 1]),
        line(20, 5, 4, &[3]),
    ];
    let image = one_point(&[TRUE, FALSE, TRUE, TRUE, START], &[1], lines, &[4]);
    let lines = vec![
        line(20, 4, 2, &[]),
        line(20, 4, 2, &[]),
        line(20, 4, 1, &[2, 1]),
        line(20, 4, 3, &[3]),
    ];
    assert_eq!(trim_twice(&image), one_point(&[TRUE, TRUE, TRUE, START], &[1], lines, &[4]));
}

#[test]
fn a_formula_that_only_its_twin_needs_goes() {
    // Formulas 1 and 2 are equal, and all that is kept names the second.
    let lines = vec![line(20, 3, 1, &[]), line(20, 3, 2, &[])];
    assert_eq!(trim_twice(&one_point(&[TRUE, TRUE, START], &[2], lines, &[2])), small());
}

/// Thread 1 has a branch to itself that is always taken, and says "false" behind it; thread 2 is idle. Claimed is that
/// they never are at their last points together. Formula `first` to `first + 6` are as they are listed here.
fn spinning(before: Bodies, lines: Vec<Vec<u8>>, obligations: &[u16], claim: u16) -> Vec<u8> {
    let first = before.len() as u16 + 1;
    let true_and_taken: &[u8] = &[25, 28, 11, 8, 28, 11, 8];
    let true_and_not: &[u8] = &[25, 28, 11, 8, 28, 11, 11, 8];
    let false_and_true: &[u8] = &[25, 28, 8, 28, 11, 8];
    let own: [&[u8]; 7] =
        [&[11, 8], TRUE, FALSE, START, true_and_taken, true_and_not, false_and_true];
    Parts {
        header: &[2, 1, 0, 8, 0],
        formulas: &[before, &own].concat(),
        threads: &[&[2, 6, 0, 0, first as u8, 0], &[1]],
        outline: &[first + 1, first + 2, first + 1],
        lines,
        obligations,
        claims: &[&[2, 0, 1, 1, claim as u8, 0]],
    }
    .bytes()
}

#[test]
fn a_line_kept_by_a_claim_alone() {
    // Obligations name lines 2, 2, 3 and 4, the claim line 6, which lists 5. Lines 1 and 7 are dead.
    let lines = vec![
        line(20, 1, 1, &[]),
        line(20, 6, 4, &[]),
        line(20, 7, 4, &[]),
        line(20, 8, 5, &[]),
        line(20, 5, 5, &[]),
        line(20, 9, 5, &[5]),
        line(20, 2, 4, &[6]),
    ];
    let image = spinning(&[&[24, 1, 17, 1], &[28, 9, 0, 0, 0, 1]], lines, &[2, 2, 3, 4], 6);
    let kept = vec![
        line(20, 4, 2, &[]),
        line(20, 5, 2, &[]),
        line(20, 6, 3, &[]),
        line(20, 3, 3, &[]),
        line(20, 7, 3, &[4]),
    ];
    let expected = spinning(&[], kept, &[1, 1, 2, 3], 5);
    assert_eq!(check(&image).to_string(), "0 0 0 0 0 0 0 0 4");
    assert_eq!(trim_twice(&image), expected);
}

#[test]
fn formulas_of_both_halves_of_an_instruction() {
    // Two registers trade their values; formulas 2 and 4 are the operands.
    let parts =
        |formulas, operands: [u8; 2], outline: u16, start: u16, line_before: Option<Vec<u8>>| {
            let code = [2, 12, 1, 0, operands[0], 0, 0, 2, 0, operands[1], 0];
            let own = [line(20, start, outline, &[]), at((1, 0), 2, outline, outline, &[])];
            let dead = line_before.iter().len() as u16;
            Parts {
                header: &[1, 1, 2, 8, 0, 1, 1, 1, 1],
                formulas,
                threads: &[&code],
                outline: &[outline, outline],
                lines: line_before.into_iter().chain(own).collect(),
                obligations: &[dead + 1, dead + 2],
                claims: &[],
            }
            .bytes()
        };
    let dead = line(20, 1, 1, &[]);
    let image = parts(&[FALSE, &[1, 2], &[1, 1], &[1, 1], TRUE, START], [2, 4], 5, 6, Some(dead));
    let expected = parts(&[&[1, 2], &[1, 1], TRUE, START], [1, 2], 3, 4, None);
    assert_eq!(trim_twice(&image), expected);
}

#[test]
fn the_program_runs_as_before() {
    let image = spinning(
        &[FALSE],
        vec![
            line(20, 1, 3, &[]),
            line(20, 5, 3, &[]),
            line(20, 6, 3, &[]),
            line(20, 7, 4, &[]),
            line(20, 8, 4, &[]),
        ],
        &[2, 2, 3, 4],
        5,
    );
    let [before, after] = [image.clone(), trim_twice(&image)]
        .map(|bytes| decode(&bytes).expect("an image in order").program);
    assert_eq!(before, after);
    let found = explore(&after, &[], Bounds { steps: 6, writes: 3, starts: 8, states: 100_000 });
    assert_eq!(found.outcome, Outcome::Holds { all: true });
}

#[test]
fn output() {
    let image = small();
    let mut room = vec![9; 60];
    for (length, code) in [(0, 25), (49, 25)] {
        assert_eq!(trim_into(&image, &mut room[..length]), Answer { code, length: 0 });
        assert_eq!(room, [9; 60]);
    }
    assert_eq!(trim_into(&image, &mut room[..50]), Answer { code: 0, length: 50 });
    assert_eq!(room, [&image[..], &[9; 10]].concat());
    let mut longer = vec![9; 60];
    assert_eq!(trim_into(&image, &mut longer), Answer { code: 0, length: 50 });
    assert_eq!(longer, room);
}

#[test]
fn not_accepted_comes_first() {
    let refused = |image: &[u8]| {
        for length in [0, 60] {
            let mut room = vec![9; length];
            assert_eq!(trim_into(image, &mut room), Answer { code: 24, length: 0 });
            assert_eq!(room, vec![9; length]);
        }
    };
    refused(&[]);
    refused(&vec![0; 262_145]);
    refused(&one_point(&[TRUE, START], &[1], vec![line(20, 2, 1, &[])], &[0]));
    refused(&one_point(&[TRUE, START], &[1], vec![line(27, 2, 1, &[])], &[1]));
    // Every obligation is met, and the claim names a line that concludes something else.
    let lines = vec![line(20, 4, 2, &[]), line(20, 5, 2, &[]), line(20, 6, 3, &[])];
    let claim_fails = spinning(&[], lines, &[1, 1, 2, 3], 3);
    assert_eq!(check(&claim_fails).code, 26);
    refused(&claim_fails);
}
