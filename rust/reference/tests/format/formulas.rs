//! Formula codes: every byte is tried as a code.

use crate::images::{code, line, single, small, with_code, START, TRUTH};
use crate::page::{number, table};
use reference::formula::parse::{parse, sort_of_code, Counts, Fault};
use reference::formula::Sort;

/// Counts that tell operands apart: no two allow the same numbers.
const COUNTS: Counts = Counts { threads: 2, words: 3, registers: 4, range: 5 };

/// The sorts with a formula of each that may stand wherever its sort may.
const SORTS: [(&str, Sort, &[u8]); 4] = [
    ("value", Sort::Value, &[0, 1]),
    ("test", Sort::Test, &[8]),
    ("interval", Sort::Interval, &[17, 1]),
    ("assertion", Sort::Assertion, &[28, 8]),
];

/// What a row says: sort, operand, parts, and where the code may not stand.
#[derive(Debug, PartialEq)]
struct Row {
    code: u8,
    sort: String,
    operand: String,
    parts: String,
    not_in: String,
}

fn sample(sort: &str) -> &'static [u8] {
    SORTS.iter().find(|(name, ..)| *name == sort).expect("a sort").2
}

/// The lists of up to two sorts.
fn part_lists() -> Vec<Vec<&'static str>> {
    let names = SORTS.map(|(name, ..)| name);
    let ones = names.iter().map(|&one| vec![one]);
    let twos = names.iter().flat_map(|&one| names.map(|two| vec![one, two]));
    [Vec::new()].into_iter().chain(ones).chain(twos).collect()
}

fn bytes(code: u8, operand: Option<u8>, parts: &[&str]) -> Vec<u8> {
    let front = [code].into_iter().chain(operand);
    front.chain(parts.iter().flat_map(|part| sample(part).iter().copied())).collect()
}

/// What the operand is, by the numbers that are read there.
fn operand_name(code: u8, parts: &[&str]) -> &'static str {
    let fits = |operand: &u8| parse(&bytes(code, Some(*operand), parts), COUNTS).is_ok();
    let fault = |operand: u8| parse(&bytes(code, Some(operand), parts), COUNTS).err();
    let read: Vec<u8> = (0..=u8::MAX).filter(fits).collect();
    let last = *read.last().expect("an operand");
    assert_eq!(fault(last + 1), Some(Fault::Range), "code {code}");
    match read[..] {
        [0, 1, 2, 3, 4] => "value",
        [1, 2, 3, 4] => "register",
        [1, 2, 3] => "word",
        [1, 2] => "thread",
        _ => panic!("code {code} has the operands {read:?}"),
    }
}

/// The row of a code by what the reader takes; none if it takes nothing.
fn row_of(code: u8) -> Option<Row> {
    let lists = part_lists();
    let shapes = lists.iter().flat_map(|parts| [(None, parts), (Some(1), parts)]);
    let read: Vec<(Option<u8>, &Vec<&str>)> = shapes
        .filter(|(operand, parts)| parse(&bytes(code, *operand, parts), COUNTS).is_ok())
        .collect();
    let sort = sort_of_code(code);
    assert_eq!(read.len(), usize::from(sort.is_some()), "code {code}: {read:?}");
    let ((operand, parts), sort) = (read.first()?, sort?);
    let formula = parse(&bytes(code, *operand, parts), COUNTS).expect("it was read");
    assert_eq!(formula.sort(), sort);
    let name = SORTS.iter().find(|(_, other, _)| *other == sort).expect("a sort").0;
    let alone = bytes(code, *operand, parts);
    Some(Row {
        code,
        sort: name.to_string(),
        operand: operand.map_or("", |_| operand_name(code, parts)).to_string(),
        parts: parts.join(", "),
        not_in: not_in(sort, &alone),
    })
}

/// A place by its name, and whether a formula may stand there.
type Place = (&'static str, fn(&[u8]) -> bool);

/// Where the formula may not stand, of the places that exclude some code.
fn not_in(sort: Sort, formula: &[u8]) -> String {
    let places: &[Place] = match sort {
        Sort::Value => &[("holds", value_under_holds), ("instruction", value_in_instruction)],
        Sort::Test => &[("holds", test_under_holds), ("instruction", test_in_instruction)],
        Sort::Interval => &[],
        Sort::Assertion => &[("outline", in_outline), ("triple", in_triple)],
    };
    let excluded = places.iter().filter(|(_, stands)| !stands(formula)).map(|(name, _)| *name);
    excluded.collect::<Vec<_>>().join(", ")
}

fn value_under_holds(value: &[u8]) -> bool {
    test_under_holds(&[&[9], value, &[0, 0]].concat())
}

fn test_under_holds(test: &[u8]) -> bool {
    match parse(&[&[28], test].concat(), COUNTS) {
        Ok(_) => true,
        Err(fault) => {
            assert_eq!(fault, Fault::Form);
            false
        }
    }
}

/// Whether the last formula may stand where it is used: it is refused as of the wrong sort, or not at all.
fn stands(code: u16) -> bool {
    assert!(matches!(code, 8 | 20 | 21), "{code}");
    code != 8
}

fn value_in_instruction(value: &[u8]) -> bool {
    let mut image = with_code(1, vec![single(0, 1, 0, 5)]);
    image.formulas.push(value.to_vec());
    stands(code(&image))
}

fn test_in_instruction(test: &[u8]) -> bool {
    let mut image = with_code(1, vec![single(6, 0, 0, 5)]);
    image.formulas.push(test.to_vec());
    stands(code(&image))
}

fn in_outline(assertion: &[u8]) -> bool {
    let mut image = small(1);
    image.formulas.push(assertion.to_vec());
    image.outline = vec![5];
    image.lines = vec![line(20, START, TRUTH)];
    stands(code(&image))
}

fn in_triple(assertion: &[u8]) -> bool {
    let sides = [(5, TRUTH), (TRUTH, 5)].map(|(left, right)| {
        let mut image = with_code(1, vec![single(1, 1, 1, 0)]);
        image.formulas.push(assertion.to_vec());
        image.lines.push(reference::image::written::Line { thread: 1, ..line(1, left, right) });
        stands(code(&image))
    });
    assert_eq!(sides[0], sides[1]);
    sides[0]
}

#[test]
fn codes_are_those_of_the_reader() {
    let known: Vec<Row> = (0..=u8::MAX).filter_map(row_of).collect();
    let titles = ["Code", "Sort", "Text", "Operand", "Parts", "Not in", "Means"];
    let told = table(titles).into_iter().map(|[code, sort, _, operand, parts, not_in, _]| Row {
        code: number(&code) as u8,
        sort,
        operand,
        parts,
        not_in,
    });
    assert_eq!(told.collect::<Vec<Row>>(), known);
}
