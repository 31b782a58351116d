//! Handovers: each clause of what permits them, and replays across them.

mod crossings;
mod lines;

use super::refused::by_code;
use super::tour;
use crate::examples::update::{header, new_code, new_code_with, old_code, old_code_with, TABLE};
use crate::examples::{message_passing, two_writes};
use crate::generate::clutter::insert::insert_line;
use crate::generate::handovers::{self, Pair};
use crate::generate::harness;
pub use crossings::{cases as crossings, CrossingCase};
use reference::assemble::Plan;
use reference::formula::parse::Counts;
use reference::image::written::{image_bytes, Line, Written};
use reference::image::{Claim, Header, Meeting};

/// Two images and a table.
#[derive(Clone, Debug, PartialEq, Eq)]
pub struct HandoverCase {
    pub label: String,
    pub pair: Pair,
}

/// Generated pairs that are longer are left out.
const LONGEST: usize = 2000;
/// So many of them are taken.
const GENERATED: usize = 50;

/// All cases of the set.
pub fn cases() -> Vec<HandoverCase> {
    let parts = [
        permitted(),
        lengths(),
        out_of_range(),
        lines::cases(),
        unlike(),
        refused(),
        numbers(),
        generated(),
    ];
    parts.concat()
}

fn case(label: impl Into<String>, old: Vec<u8>, new: Vec<u8>, table: &[u8]) -> HandoverCase {
    HandoverCase { label: label.into(), pair: Pair { old, new, table: table.to_vec() } }
}

/// From the old code to the new one, by another table.
fn by_table(label: impl Into<String>, table: &[u8]) -> HandoverCase {
    case(label, old_code().bytes(), new_code().bytes(), table)
}

/// The table with other bytes at some places.
fn table_with(changes: &[(usize, u8)]) -> [u8; 15] {
    let mut table = TABLE;
    changes.iter().for_each(|&(place, byte)| table[place] = byte);
    table
}

fn new_written() -> Written {
    new_code().written()
}

/// The pair of an image with itself: a line for each point, behind all others.
pub fn with_itself(image: &[u8]) -> Pair {
    let mut new = Written::read(image).expect("in order");
    let mut table = Vec::new();
    let mut points = new.threads.iter().flat_map(|code| 0..=code.len() as u8).collect::<Vec<_>>();
    for (point, assertion) in points.drain(..).zip(new.outline.clone()) {
        let line = identity(assertion);
        let known = new.lines.iter().position(|other| *other == line);
        let number = known.unwrap_or_else(|| {
            new.lines.push(line);
            new.lines.len() - 1
        });
        table.push(point);
        table.extend((number as u16 + 1).to_le_bytes());
    }
    Pair { old: image.to_vec(), new: new.bytes(), table }
}

fn identity(assertion: u16) -> Line {
    Line { rule: 20, thread: 0, point: 0, left: assertion, right: assertion, premises: Vec::new() }
}

fn permitted() -> Vec<HandoverCase> {
    let mut cases = vec![by_table("accepted: to the new code", &TABLE)];
    let itself = [
        ("message passing", message_passing().bytes()),
        ("two writes", two_writes().bytes()),
        ("tour", image_bytes(&tour::records())),
        ("small", super::images::SMALL.to_vec()),
        ("the old code", old_code().bytes()),
    ];
    for (name, image) in itself {
        cases.push(HandoverCase {
            label: format!("accepted: {name} with itself"),
            pair: with_itself(&image),
        });
    }
    // Thread 2 may go on at any of its points: of none is anything said.
    for (first, second) in [(0, 0), (1, 0), (2, 0), (0, 2), (2, 2), (2, 1)] {
        let label = format!("accepted: thread 2 at {first} and {second}");
        cases.push(by_table(label, &table_with(&[(9, first), (12, second)])));
    }
    cases
}

/// Every length up to some bytes more, and much longer.
fn lengths() -> Vec<HandoverCase> {
    let mut cases = Vec::new();
    for length in (0..15).chain([16, 17, 18, 21, 30, 255, 256 + 15]) {
        let mut table = TABLE.to_vec();
        table.resize(length, 1);
        cases.push(by_table(format!("33: {length} bytes"), &table));
    }
    // As many as the new image has points, and an old image with fewer points than the new one.
    let back =
        |table: &[u8], label: &str| case(label, new_code().bytes(), old_code().bytes(), table);
    cases.push(back(&[0, 1, 0, 0, 1, 0, 0, 1, 0, 0, 1, 0, 1, 1, 0], "34: the other way"));
    cases.push(back(&[0, 1, 0, 0, 1, 0, 0, 1, 0, 0, 1, 0, 2, 1, 0], "33: the other way, point 2"));
    cases
}

/// Each entry with a point or a line that is not there; others that do not serve come behind it or before.
fn out_of_range() -> Vec<HandoverCase> {
    let lines = new_written().lines.len() as u16;
    let points = [2, 2, 2, 3, 3];
    let mut cases = Vec::new();
    for (entry, &behind) in points.iter().enumerate() {
        let (point, line) = (3 * entry, 3 * entry + 1);
        let with_line = |number: u16| {
            let [low, high] = number.to_le_bytes();
            table_with(&[(line, low), (line + 1, high)])
        };
        let other = (entry + 1) % 5;
        let mut both = with_line(0);
        both[3 * other + 1] = lines as u8;
        let all = [
            ("point behind the last", table_with(&[(point, behind)])),
            ("point 255", table_with(&[(point, 255)])),
            ("line 0", with_line(0)),
            ("line behind the last", with_line(lines + 1)),
            ("line 256 higher", table_with(&[(line + 1, 1)])),
            ("line 65,535", with_line(u16::MAX)),
            ("line 0, and another that does not serve", both),
        ];
        cases.extend(
            all.map(|(name, table)| by_table(format!("33: entry {entry}: {name}"), &table)),
        );
    }
    cases
}

/// Headers that differ in one field, both images accepted, and both with the same other header.
fn unlike() -> Vec<HandoverCase> {
    let like = header();
    let counts = like.counts;
    let others = [
        (
            "words",
            Header { counts: Counts { words: 2, ..counts }, start: vec![3, 0], ..like.clone() },
        ),
        (
            "registers",
            Header {
                counts: Counts { registers: 3, ..counts },
                owners: vec![1, 2, 1],
                marks: vec![1, 0, 1],
                ..like.clone()
            },
        ),
        ("range 9", Header { counts: Counts { range: 9, ..counts }, ..like.clone() }),
        ("range 16", Header { counts: Counts { range: 16, ..counts }, ..like.clone() }),
        ("start values", Header { start: vec![4], ..like.clone() }),
        ("owners", Header { owners: vec![1, 1], ..like.clone() }),
        ("marks", Header { marks: vec![1, 1], ..like.clone() }),
    ];
    let mut cases = Vec::new();
    for (field, other) in others {
        let [old, new] =
            [old_code_with(other.clone()), new_code_with(other)].map(|plan| plan.bytes());
        cases.push(case(format!("32: old {field}"), old.clone(), new_code().bytes(), &TABLE));
        cases.push(case(format!("32: new {field}"), old_code().bytes(), new.clone(), &TABLE));
        cases.push(case(
            format!("32 before 33: new {field}"),
            old_code().bytes(),
            new.clone(),
            &[],
        ));
        cases.push(case(format!("accepted: {field}, both"), old, new, &TABLE));
    }
    cases.extend(more_threads());
    cases
}

/// A third thread that does nothing.
fn more_threads() -> [HandoverCase; 2] {
    let with_third = |plan: Plan| {
        let mut program = plan.program;
        program.header.counts.threads = 3;
        program.threads.push(Vec::new());
        harness::plan(harness::program(program.header, program.threads)).bytes()
    };
    let [old, new] = [old_code(), new_code()].map(with_third);
    let table = [&TABLE[..], &[0, 4, 0]].concat();
    [
        case("32: old threads", old, new_code().bytes(), &table),
        case("32: new threads", old_code().bytes(), new, &TABLE),
    ]
}

/// An image of each code in the place of either, with a table that is right or too short; and both images with all in
/// order but an obligation or a claim.
fn refused() -> Vec<HandoverCase> {
    let of_code = |(code, image): (u16, Vec<u8>)| {
        let table = if code % 2 == 0 { &TABLE[..] } else { &[] };
        [
            case(format!("32: old image of code {code}"), image.clone(), new_code().bytes(), table),
            case(format!("32: new image of code {code}"), old_code().bytes(), image, table),
        ]
    };
    let in_order = [
        ("an obligation has no line", with_line(0)),
        ("an obligation's line says something else", with_line(2)),
        ("a claim is not shown", Box::new(claim) as Box<dyn Fn(&mut Written)>),
    ];
    let spoilt = in_order.iter().flat_map(|(label, change)| {
        let [mut old, mut new] = [old_code().written(), new_written()];
        change(&mut old);
        change(&mut new);
        [
            case(format!("32: old image, {label}"), old.bytes(), new_code().bytes(), &TABLE),
            case(format!("32: new image, {label}"), old_code().bytes(), new.bytes(), &TABLE),
        ]
    });
    by_code().into_iter().flat_map(of_code).chain(spoilt).collect()
}

/// The second obligation by another line.
fn with_line(line: u16) -> Box<dyn Fn(&mut Written)> {
    Box::new(move |image| image.obligations[1] = line)
}

/// The threads are never at their first points together, which is false.
fn claim(image: &mut Written) {
    let meeting = Meeting { thread: 1, point: 0, other_thread: 2, other_point: 0 };
    image.claims.push(Claim { meeting, line: 1 });
}

/// Lines above 255 and formulas written twice.
fn numbers() -> Vec<HandoverCase> {
    let mut far = new_written();
    let again = far.lines[3].clone();
    (0..300).for_each(|_| {
        insert_line(&mut far, 1, again.clone());
    });
    let moved = |by: u16| -> Vec<u8> {
        let entries = TABLE.chunks_exact(3);
        let entry = |entry: &[u8]| {
            let [low, high] = (u16::from(entry[1]) + by).to_le_bytes();
            [entry[0], low, high]
        };
        entries.flat_map(entry).collect()
    };
    let far = |label: &str, by| case(label, old_code().bytes(), far.bytes(), &moved(by));
    vec![
        far("accepted: 300 lines in front", 300),
        far("34: 300 lines in front, the old numbers", 0),
        far("34: 300 lines in front, their low bytes", 44),
        far("34: 300 lines in front, 1 less", 299),
    ]
}

/// Pairs by their seeds.
fn generated() -> Vec<HandoverCase> {
    let pairs = (0..).map(|seed| (seed, handovers::pair(seed)));
    let short = pairs.filter(|(_, pair)| pair.old.len() + pair.new.len() < LONGEST);
    short
        .map(|(seed, pair)| HandoverCase { label: format!("seed {seed}"), pair })
        .take(GENERATED)
        .collect()
}
