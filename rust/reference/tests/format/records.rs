//! Kinds of records, the order of obligations, and the image byte by byte.

use crate::images::{double, line, program, single, small, with_code, FALSE, TRUTH, ZERO};
use crate::limits::{test_of, value_of};
use crate::page::{number, page, spans, table};
use reference::checker::obligations::{duties, Duty};
use reference::checker::{check, frames};
use reference::image::written::{image_bytes, Record, Written};
use reference::image::{Claim, Meeting, Program, Statement};

/// The kinds by name.
const KINDS: [(&str, u16); 7] = [
    ("header", frames::HEADER),
    ("formula", frames::FORMULA),
    ("thread", frames::THREAD),
    ("outline", frames::OUTLINE),
    ("line", frames::LINE),
    ("obligations", frames::OBLIGATIONS),
    ("claim", frames::CLAIM),
];

/// The records of an image that has each kind.
fn every_kind() -> Vec<Record> {
    let mut image = small(2);
    let meeting = Meeting { thread: 1, point: 0, other_thread: 2, other_point: 0 };
    image.claims.push(Claim { meeting, line: 0 });
    image.records()
}

#[test]
fn kinds_are_those_of_the_frames() {
    let mut known = Vec::new();
    for kind in (0..=u16::MAX).filter(|&kind| frames::most(kind) > 0) {
        let name = KINDS.iter().find(|(_, other)| *other == kind).expect("a name").0;
        let mut records = every_kind();
        records.retain(|record| record.kind != kind);
        let least = usize::from(frames::split(&image_bytes(&records)).is_err());
        known.push((u32::from(kind), name.to_string(), least, frames::most(kind)));
    }
    let told = table(["Kind", "Record", "Least", "Most"]).into_iter();
    let told = told.map(|[kind, name, least, most]| {
        (number(&kind), name, number(&least) as usize, number(&most) as usize)
    });
    assert_eq!(told.collect::<Vec<_>>(), known);
}

/// The image of the page: thread 1 has a store and a branch, thread 2 a load.
fn store_branch_and_load() -> Program {
    let mut image = with_code(2, vec![single(3, 1, 0, ZERO), single(6, 0, 0, FALSE)]);
    image.threads[1] = vec![single(1, 1, 1, 0)];
    image.header.owners = vec![2; 3];
    image.outline.push(TRUTH);
    image.obligations = vec![0; 11];
    program(&image)
}

#[test]
fn obligations_have_the_order_of_the_page() {
    let listed = duties(&store_branch_and_load().threads).into_iter().map(|duty| match duty {
        Duty::Start { thread } => [1, thread, 0, 0, 0],
        Duty::Next { thread, point } => [2, thread, point, 0, 0],
        Duty::Taken { thread, point } => [3, thread, point, 0, 0],
        Duty::Kept { thread, point, actor, action } => [4, thread, point, actor, action],
    });
    let titles = ["Obligation", "Class", "Thread", "Point", "Acting thread", "Acting point"];
    let told = table(titles).into_iter().map(|row| row.map(|cell| number(&cell)));
    let listed: Vec<[u32; 6]> = (1..)
        .zip(listed)
        .map(|(count, [a, b, c, d, e])| [count, a.into(), b.into(), c.into(), d.into(), e.into()])
        .collect();
    assert_eq!(told.collect::<Vec<_>>(), listed);
}

#[test]
fn classes_have_the_forms_of_the_page() {
    let program = store_branch_and_load();
    let mut known: Vec<(u32, &str)> = Vec::new();
    for duty in duties(&program.threads) {
        let class = match duty {
            Duty::Start { .. } => 1,
            Duty::Next { .. } => 2,
            Duty::Taken { .. } => 3,
            Duty::Kept { .. } => 4,
        };
        let form = match duty.wanted(&program) {
            Statement::Triple { .. } => "triple",
            Statement::Implication { .. } => "implication",
            Statement::Inclusion { .. } => "inclusion",
        };
        if !known.contains(&(class, form)) {
            known.push((class, form));
        }
    }
    known.sort_by_key(|(class, _)| *class);
    let rows = table(["Class", "Name in the header", "For each", "Form", "From", "To"]);
    let told = rows
        .iter()
        .map(|[class, _, _, form, ..]| (number(class), form.split(' ').next().expect("a form")));
    assert_eq!(told.collect::<Vec<_>>(), known);
}

/// The page without its line breaks.
fn unwrapped() -> String {
    page().split_whitespace().collect::<Vec<_>>().join(" ")
}

/// The bytes of a row of hexadecimal digits.
fn bytes_of(digits: &str) -> impl Iterator<Item = u8> + '_ {
    digits.split(' ').map(|digit| u8::from_str_radix(digit, 16).expect("a byte"))
}

#[test]
fn the_image_byte_by_byte_is_judged_as_the_page_says() {
    let mut bytes: Vec<u8> = Vec::new();
    for [offset, cell, _] in table(["Offset", "Bytes", "Says"]) {
        assert_eq!(number(&offset) as usize, bytes.len(), "{cell}");
        bytes.extend(bytes_of(spans(&cell).0[0]));
    }
    let mut last = bytes.clone();
    *last.iter_mut().nth_back(1).expect("bytes") = 0;
    let text = unwrapped();
    let accepted = format!("prints `{}` for these {} bytes", check(&bytes), bytes.len());
    assert!(text.contains(&accepted), "{accepted}");
    let refused = format!("With 0 for the last number it prints `{}`", check(&last));
    assert!(text.contains(&refused), "{refused}");
    assert_eq!((check(&bytes).code, check(&last).code), (0, 20));
}

#[test]
fn the_header_with_an_open_register_is_well_formed() {
    let text = unwrapped();
    let behind = text.split_once("the header would be `").expect("the sentence").1;
    let record: Vec<u8> = bytes_of(behind.split('`').next().expect("bytes")).collect();
    let mut image = small(1);
    (image.header.counts.words, image.header.counts.registers) = (1, 1);
    image.header.start = vec![0];
    image.header.owners = vec![1];
    image.header.marks = vec![0];
    assert_eq!(image_bytes(&image.records()[..1]), record);
}

/// The numbers of the sentence on the largest image: obligations, bytes.
fn told_sizes() -> (usize, usize) {
    let text = unwrapped();
    let sizes = text.split_once("So there are at most ").expect("the sentence").1;
    let (obligations, rest) = sizes
        .split_once(" obligations, and the longest well-formed image has ")
        .expect("the sentence");
    let bytes = rest.split(" bytes").next().expect("a number");
    let size = |digits: &str| number(&digits.replace(',', "")) as usize;
    (size(obligations), size(bytes))
}

/// Every count at its limit, every formula and every instruction as long as it may be.
fn largest(obligations: usize) -> Written {
    let mut image = small(4);
    image.header.counts.words = 8;
    image.header.start = vec![0; 8];
    image.header.counts.registers = 16;
    image.header.owners = (0..16).map(|register| register / 4 + 1).collect();
    image.header.marks = vec![1; 16];
    // A value has no formula of 255 bytes: constants, registers and words have two, a sum one more than its parts.
    image.formulas = vec![[vec![28], test_of(254)].concat(); 499];
    image.formulas.push(value_of(254));
    for (thread, code) in (0..4).zip(&mut image.threads) {
        *code = vec![double(12, 4 * thread + 1, 0, 500, 4 * thread + 2, 500); 15];
    }
    image.outline = vec![1; 64];
    let mut line = line(20, 1, 1);
    image.lines = vec![line.clone()];
    line.premises = vec![1; 4];
    image.lines.extend(vec![line; 3999]);
    image.obligations = vec![1; obligations];
    let meeting = Meeting { thread: 1, point: 0, other_thread: 2, other_point: 0 };
    image.claims = vec![Claim { meeting, line: 0 }; 16];
    image
}

#[test]
fn the_largest_image_is_as_large_as_the_page_says() {
    let (obligations, bytes) = told_sizes();
    let image = largest(obligations).bytes();
    assert_eq!(check(&image).to_string(), "21 0 1 1 0 0 0 1 0", "it is well formed");
    assert_eq!(image.len(), bytes);
}
