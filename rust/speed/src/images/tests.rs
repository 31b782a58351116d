//! Images whose answers were worked out by hand, and the stored set, for all readers.

use super::answer::Answer;
use super::reader::{self, ByScan, ByTree};
use crate::rattle;
use reference::checker::Refusal;
use reference::stored::stored_images;

fn expect(image: &[u8], answer: Answer) {
    for read in [rattle::image, reader::read::<ByTree>, reader::read::<ByScan>] {
        assert_eq!(read(image), answer, "{image:?}");
    }
}

fn refused(code: u16, record: usize) -> Answer {
    Err(Refusal::at(code, record))
}

/// Kind and body of each record.
type Records = Vec<(u8, Vec<u8>)>;

/// One thread with one word, its register 1 and the instruction `register 1 := register 1`; the formulas
/// a register, holds false, start, false; a line that is an implication and one that is a triple.
fn records() -> Records {
    vec![
        (1, vec![1, 1, 1, 8, 0, 1, 1]),
        (2, vec![1, 1]),
        (2, vec![28, 8]),
        (2, vec![27]),
        (2, vec![8]),
        (3, vec![2, 0, 1, 0, 1, 0]),
        (4, vec![2, 0, 2, 0]),
        (5, vec![20, 0, 0, 3, 0, 2, 0, 0]),
        (5, vec![1, 1, 0, 2, 0, 2, 0, 1, 1, 0]),
        (6, vec![1, 0, 2, 0]),
    ]
}

fn bytes(records: &Records) -> Vec<u8> {
    let record =
        |(kind, body): &(u8, Vec<u8>)| [&[body.len() as u8 + 2, 0, *kind, 0], &body[..]].concat();
    records.iter().flat_map(record).collect()
}

/// The image with a byte of a record's body replaced; records are counted from 1, bytes from 0.
fn with(record: usize, at: usize, byte: u8) -> Vec<u8> {
    let mut records = records();
    records[record - 1].1[at] = byte;
    bytes(&records)
}

#[test]
fn the_image_is_sound() {
    expect(&bytes(&records()), Ok(()));
}

#[test]
fn an_image_that_is_empty_or_too_long_is_code_2() {
    expect(&[], refused(2, 0));
    expect(&vec![0; 262_145], refused(2, 0));
}

#[test]
fn a_length_that_is_cut_short_too_small_or_past_the_end_is_code_3() {
    let mut image = bytes(&records());
    expect(&image[..1], refused(3, 1));
    expect(&[1, 0, 1], refused(3, 1));
    expect(&image[..image.len() - 1], refused(3, 10));
    image.push(0);
    expect(&image, refused(3, 11));
}

#[test]
fn a_kind_that_is_misplaced_too_often_or_missing_is_code_4() {
    let mut missing = records();
    missing.pop();
    expect(&bytes(&missing), refused(4, 10));
    let mut twice = records();
    twice.push((6, vec![1, 0, 2, 0]));
    expect(&bytes(&twice), refused(4, 11));
    let mut skipped = records();
    skipped.remove(6);
    expect(&bytes(&skipped), refused(4, 7));
}

#[test]
fn a_body_that_is_too_short_or_too_long_is_code_5() {
    for record in [1, 6, 7, 8, 9, 10] {
        let mut longer = records();
        longer[record - 1].1.push(0);
        expect(&bytes(&longer), refused(5, record));
    }
    let mut empty = records();
    empty[1].1.clear();
    expect(&bytes(&empty), refused(5, 2));
}

#[test]
fn a_number_out_of_its_range_is_code_6() {
    // Threads, the range, a start value, an owner, a mark; a register in a formula; an operation, its unused field, its
    // formula; a formula of the outline; a rule, a place, a formula, a premise of a line; a line.
    for (record, at, byte) in [
        (1, 0, 2),
        (1, 3, 1),
        (1, 3, 17),
        (1, 4, 8),
        (1, 5, 2),
        (1, 6, 2),
        (2, 1, 2),
        (6, 1, 7),
        (6, 3, 1),
        (6, 4, 5),
        (7, 0, 0),
        (8, 0, 28),
        (8, 1, 1),
        (9, 2, 1),
        (9, 5, 5),
        (9, 8, 2),
        (10, 2, 3),
    ] {
        expect(&with(record, at, byte), refused(6, record));
    }
}

#[test]
fn a_malformed_formula_is_code_7() {
    expect(&with(3, 1, 2), refused(7, 3));
    expect(&with(4, 0, 31), refused(7, 4));
}

#[test]
fn a_formula_of_the_wrong_sort_is_code_8() {
    // A test where a value is due; start in the outline; a value in an implication; start in a triple.
    for (record, at, byte) in [(6, 4, 4), (7, 2, 3), (8, 5, 1), (9, 3, 3)] {
        expect(&with(record, at, byte), refused(8, record));
    }
}

#[test]
fn another_threads_register_is_code_9() {
    let mut records = records();
    // A second thread of one point owns the register.
    records[0].1 = vec![2, 1, 1, 8, 0, 2, 1];
    records.insert(6, (3, vec![1]));
    expect(&bytes(&records), refused(9, 6));
}

#[test]
fn an_operand_that_names_the_result_register_is_code_23() {
    let mut records = records();
    for operation in [7, 8] {
        records[5].1 = vec![2, operation, 1, 1, 1, 0];
        expect(&bytes(&records), refused(23, 6));
    }
}

/// The image with another body for its thread.
fn with_thread(body: &[u8]) -> Vec<u8> {
    let mut records = records();
    records[0].1 = vec![1, 1, 2, 8, 0, 1, 1, 1, 1];
    records[5].1 = body.to_vec();
    bytes(&records)
}

#[test]
fn operations_9_to_12_have_ten_bytes() {
    for operation in 9..=12 {
        let sound = [2, operation, 1, 0, 1, 0, 0, 2, 0, 1, 0];
        expect(&with_thread(&sound), Ok(()));
        expect(&with_thread(&sound[..6]), refused(5, 6));
        expect(&with_thread(&[&sound[..], &[0]].concat()), refused(5, 6));
        for (at, byte) in [(3, 1), (6, 3), (7, 3), (8, 1), (9, 0)] {
            let mut wrong = sound;
            wrong[at] = byte;
            expect(&with_thread(&wrong), refused(6, 6));
        }
    }
    expect(&with_thread(&[2, 12, 1, 0, 1, 0, 0, 1, 0, 1, 0]), refused(6, 6));
    expect(&with_thread(&[2, 8, 1, 2, 1, 0, 0, 2, 0, 1, 0]), refused(5, 6));
}

#[test]
fn claims_name_two_threads_and_points_of_theirs() {
    let mut two = records();
    two[0].1 = vec![2, 1, 1, 8, 0, 1, 1];
    two.insert(6, (3, vec![1]));
    two[7].1 = vec![2, 0, 2, 0, 2, 0];
    two[10].1 = vec![1, 0, 2, 0, 2, 0, 2, 0];
    let claimed = |body: &[u8], count: usize| {
        let mut records = two.clone();
        records.extend(vec![(8, body.to_vec()); count]);
        bytes(&records)
    };
    expect(&claimed(&[1, 1, 2, 0, 1, 0], 16), Ok(()));
    expect(&claimed(&[1, 1, 2, 0, 1, 0], 17), refused(4, 28));
    expect(&claimed(&[1, 1, 2, 0, 1], 1), refused(5, 12));
    for body in [
        [1, 1, 1, 0, 1, 0],
        [1, 2, 2, 0, 1, 0],
        [2, 1, 1, 0, 1, 0],
        [0, 0, 2, 0, 1, 0],
        [1, 1, 2, 0, 3, 0],
    ] {
        expect(&claimed(&body, 1), refused(6, 12));
    }
}

#[test]
fn the_first_record_and_in_it_the_lowest_code_is_named() {
    let mut two = records();
    two[6].1[0] = 0;
    two[5].1[4] = 4;
    expect(&bytes(&two), refused(8, 6));
    two[5].1[3] = 1;
    expect(&bytes(&two), refused(6, 6));
    // Frames come before bodies: without an obligations record, a third line is the last.
    two[9].0 = 5;
    expect(&bytes(&two), refused(4, 11));
}

/// The set `images` of `crates/vectors_calls`.
#[test]
fn stored_verdicts_are_met() {
    let path = concat!(env!("CARGO_MANIFEST_DIR"), "/../../crates/vectors_calls/data/images.bin");
    let stored = std::fs::read(path).expect("the stored set is there");
    let cases = stored_images(&stored).expect("the set is whole");
    for case in &cases {
        let [code, record, ..] = case.fields;
        let refused = || Err(Refusal { code, record });
        expect(case.image, if matches!(code, 0 | 20..=22 | 26) { Ok(()) } else { refused() });
    }
    assert!(cases.len() > 2000);
}
