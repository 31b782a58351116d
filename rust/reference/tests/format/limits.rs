//! Limits: at each bound an image is read or a line justified, and one beyond it is not.

use crate::images::{is_well_formed, line, single, small, with_code, START, TRUTH, ZERO};
use crate::page::{number, table};
use reference::checker::rules::{rows::MOST_ROWS, table::MOST_LEAVES, MOST_PREMISES};
use reference::checker::{check, check_within, decode, frames, limits, rules, verdict};
use reference::formula::nesting;
use reference::image::written::{image_bytes, Written};
use reference::image::{Claim, Meeting};
use reference::{bill, handover, replay, service};

/// What is asked of a limit: does it permit this number? None where there is no such image at all.
type Permits = fn(usize) -> Option<bool>;

/// Each limit of the page with its constant, if it has one, and how it is tried.
const LIMITS: [(&str, Option<usize>, Permits); 17] = [
    ("bytes of an image, for every call", Some(limits::IMAGE_BYTES), image_bytes_for_calls),
    (
        "bytes of an image, for the program `verdict`",
        Some(limits::PROGRAM_BYTES),
        image_bytes_for_program,
    ),
    ("threads", Some(limits::THREADS as usize), threads),
    ("words", Some(limits::WORDS as usize), words),
    ("registers", Some(limits::REGISTERS as usize), registers),
    ("range", None, range),
    ("points of a thread", Some(limits::POINTS as usize), points),
    ("formulas", Some(limits::FORMULAS), formulas),
    ("bytes of a formula", Some(nesting::BYTES), formula_bytes),
    ("nesting of a formula", Some(nesting::NESTING), formula_nesting),
    ("lines", Some(limits::LINES), lines),
    ("premises of a line", Some(MOST_PREMISES), premises),
    ("claims", Some(limits::CLAIMS), claims),
    ("rows of a test by rows", Some(MOST_ROWS), rows),
    ("leaves of a truth table", Some(MOST_LEAVES), leaves),
    ("writes of a replay", Some(replay::MOST_WRITES), writes),
    ("callers of a service", Some(service::CALLERS), callers),
];

#[test]
fn limits_are_those_of_the_page() {
    let told = table(["Limit", "Least", "Most", "Name in the header"]);
    assert_eq!(told.len(), LIMITS.len());
    for ([name, least, most, _], (limit, constant, permits)) in told.into_iter().zip(LIMITS) {
        assert_eq!(name, limit);
        let (least, most) = (number(&least) as usize, number(&most) as usize);
        assert_eq!(constant.unwrap_or(most), most, "{name}");
        assert_eq!(permits(least), Some(true), "{name}: {least}");
        assert_eq!(permits(most), Some(true), "{name}: {most}");
        assert_ne!(permits(most + 1), Some(true), "{name}: {most} and one more");
        if let Some(fewer) = least.checked_sub(1) {
            assert_ne!(permits(fewer), Some(true), "{name}: {fewer}");
        }
    }
}

#[test]
fn sizes_are_those_of_the_page() {
    let sizes = [
        ("bytes of a verdict", verdict::RECORD_BYTES),
        ("kind of a verdict", verdict_kind()),
        ("numbers of a replay's answer", replay::ANSWER),
        ("bytes of a write in a table", replay::WRITE_BYTES),
        ("bytes of an entry of a handover table", handover::ENTRY_BYTES),
        ("numbers of a service", service::SERVICE),
        ("numbers of a bill", bill::ANSWER),
    ];
    let told = table(["Size", "Number", "Name in the header"]).into_iter();
    let told: Vec<(String, usize)> =
        told.map(|[name, size, _]| (name, number(&size) as usize)).collect();
    assert_eq!(told, sizes.map(|(name, size)| (name.to_string(), size)));
}

/// The kind that stands in a verdict's record.
fn verdict_kind() -> usize {
    frames::number_at(&check(&[]).record(), 2).expect("a number").into()
}

fn reads(image: &Written) -> Option<bool> {
    Some(is_well_formed(check(&image.bytes()).code))
}

fn image_bytes_for_calls(count: usize) -> Option<bool> {
    Some(check(&vec![0; count]).code != 2)
}

fn image_bytes_for_program(count: usize) -> Option<bool> {
    Some(check_within(&vec![0; count], limits::PROGRAM_BYTES).code != 2)
}

fn threads(count: usize) -> Option<bool> {
    reads(&small(u8::try_from(count).ok()?))
}

fn words(count: usize) -> Option<bool> {
    let mut image = small(1);
    image.header.counts.words = count as u8;
    image.header.start = vec![0; count];
    reads(&image)
}

fn registers(count: usize) -> Option<bool> {
    let mut image = small(1);
    image.header.counts.registers = count as u8;
    image.header.owners = vec![1; count];
    image.header.marks = vec![1; count];
    reads(&image)
}

fn range(count: usize) -> Option<bool> {
    let mut image = small(1);
    image.header.counts.range = count as u8;
    reads(&image)
}

/// A thread that says 0 points has no instruction, as one that says 1.
fn points(count: usize) -> Option<bool> {
    let code = vec![single(0, 1, 0, ZERO); count.saturating_sub(1)];
    let mut records = with_code(1, code).records();
    let thread = records.iter_mut().find(|record| record.kind == frames::THREAD);
    thread.expect("a thread").body[0] = count as u8;
    Some(is_well_formed(check(&image_bytes(&records)).code))
}

fn formulas(count: usize) -> Option<bool> {
    let mut image = small(1);
    image.formulas.resize(count, vec![8]);
    // One alone is enough: lines and outline name it.
    let only = count.clamp(1, 2) as u16;
    image.lines = vec![line(20, only, TRUTH)];
    reads(&image)
}

/// A test of so many bytes, nested no deeper than need be.
pub fn test_of(bytes: usize) -> Vec<u8> {
    match bytes {
        0 => Vec::new(),
        1 => vec![8],
        2 => vec![11, 8],
        _ => {
            let half = (bytes - 1) / 2;
            [vec![12], test_of(half), test_of(bytes - 1 - half)].concat()
        }
    }
}

/// A value of so many bytes, which are two more than a multiple of three.
pub fn value_of(bytes: usize) -> Vec<u8> {
    match bytes {
        2 => vec![0, 0],
        _ => {
            let leaves = (bytes + 1) / 3;
            let half = leaves / 2;
            [vec![3], value_of(3 * half - 1), value_of(3 * (leaves - half) - 1)].concat()
        }
    }
}

fn formula_bytes(count: usize) -> Option<bool> {
    let mut image = small(1);
    image.formulas.push(test_of(count));
    reads(&image)
}

/// Nothing has nesting 0.
fn formula_nesting(count: usize) -> Option<bool> {
    let mut image = small(1);
    image.formulas.push([vec![11; count.checked_sub(1)?], vec![8]].concat());
    reads(&image)
}

fn lines(count: usize) -> Option<bool> {
    let mut image = small(1);
    image.lines = vec![line(20, START, TRUTH); count];
    reads(&image)
}

fn premises(count: usize) -> Option<bool> {
    let mut image = small(1);
    let mut second = line(20, START, TRUTH);
    second.premises = vec![1; count];
    image.lines.push(second);
    reads(&image)
}

fn claims(count: usize) -> Option<bool> {
    let mut image = small(2);
    let meeting = Meeting { thread: 1, point: 0, other_thread: 2, other_point: 0 };
    image.claims = vec![Claim { meeting, line: 0 }; count];
    reads(&image)
}

/// Whether the line from an assertion to itself is justified, where registers have this many values.
fn same(rule: u8, range: u8, assertion: Vec<u8>) -> Option<bool> {
    let mut image = small(1);
    image.header.counts.registers = 16;
    image.header.owners = vec![1; 16];
    image.header.marks = vec![1; 16];
    image.header.counts.range = range;
    image.formulas.push(assertion);
    let number = image.formulas.len() as u16;
    image.lines.push(line(rule, number, number));
    let image = decode(&image.bytes()).expect("well formed");
    rules::justified_lines(&image).pop()
}

/// `holds` of all these tests.
fn all_of(tests: &[Vec<u8>]) -> Vec<u8> {
    match tests {
        [] => vec![11, 8],
        [one] => one.clone(),
        _ => {
            let (front, back) = tests.split_at(tests.len() / 2);
            [vec![12], all_of(front), all_of(back)].concat()
        }
    }
}

/// Only numbers of rows that are powers of two have a test; beyond one there is the next.
fn rows(count: usize) -> Option<bool> {
    let names = count.next_power_of_two().trailing_zeros() as u8;
    let tests: Vec<Vec<u8>> = (1..=names).map(|name| vec![9, 1, name, 1, name]).collect();
    let tried = count > 0;
    same(21, 2, [vec![28], all_of(&tests)].concat()).filter(|_| tried)
}

fn leaves(count: usize) -> Option<bool> {
    let tests: Vec<Vec<u8>> = (1..=count as u8).map(|name| vec![9, 1, name, 0, 0]).collect();
    same(20, 2, [vec![28], all_of(&tests)].concat())
}

/// Whether the table of a replay, which has room for 100 writes, can hold so many.
fn writes(count: usize) -> Option<bool> {
    let most = replay::room(100 * replay::WRITE_BYTES);
    Some((1..=most).contains(&count))
}

/// Whether there is such a caller; none of them has a right.
fn callers(count: usize) -> Option<bool> {
    Some(
        service::admitted(&[0; service::SERVICE], count, service::Right::Check)
            == service::NO_RIGHT,
    )
}
