//! Verdicts worked out by hand.
use super::obligations::{duties, Duty};
use super::{check, check_into, check_within, limits};
use crate::formula::Test;
use crate::image::{Access, Instruction};
use std::rc::Rc;

const SMALL: &str = "07 00 01 00 01 01 00 08 00  05 00 02 00 1C 0B 08  03 00 02 00 1B  \
    03 00 03 00 01  04 00 04 00 01 00  0A 00 05 00 14 00 00 02 00 01 00 00  04 00 06 00 01 00";

fn bytes(text: &str) -> Vec<u8> {
    text.split_whitespace().map(|pair| u8::from_str_radix(pair, 16).expect("hexadecimal")).collect()
}

/// The small image with one byte changed.
fn changed(place: usize, byte: u8) -> Vec<u8> {
    let mut image = bytes(SMALL);
    image[place] = byte;
    image
}

fn verdict(image: &[u8]) -> String {
    check(image).to_string()
}

#[test]
fn small_image_is_accepted() {
    assert_eq!(verdict(&bytes(SMALL)), "0 0 0 0 0 0 0 0 1");
}

#[test]
fn small_image_without_a_line() {
    let last = bytes(SMALL).len() - 2;
    assert_eq!(verdict(&changed(last, 0)), "20 0 1 1 0 0 0 0 0");
}

#[test]
fn whole_image() {
    assert_eq!(verdict(&[]), "2 0 0 0 0 0 0 0 0");
    assert_eq!(verdict(&vec![0; 262_145]), "2 0 0 0 0 0 0 0 0");
    assert_eq!(verdict(&vec![0; 262_144]), "3 1 0 0 0 0 0 0 0");
}

#[test]
fn the_program_reads_less_than_the_library() {
    let by_program = |image: &[u8]| check_within(image, limits::PROGRAM_BYTES).to_string();
    assert_eq!(by_program(&vec![0; 65_536]), "2 0 0 0 0 0 0 0 0");
    assert_eq!(by_program(&vec![0; 65_535]), "3 1 0 0 0 0 0 0 0");
    assert_eq!(by_program(&[]), "2 0 0 0 0 0 0 0 0");
    assert_eq!(by_program(&bytes(SMALL)), verdict(&bytes(SMALL)));
}

#[test]
fn frames() {
    let image = bytes(SMALL);
    assert_eq!(verdict(&image[..1]), "3 1 0 0 0 0 0 0 0");
    assert_eq!(verdict(&image[..9]), "4 2 0 0 0 0 0 0 0");
    assert_eq!(verdict(&[&image[..], &[0]].concat()), "3 8 0 0 0 0 0 0 0");
    assert_eq!(verdict(&[&image[..], &[2, 0, 6, 0]].concat()), "4 8 0 0 0 0 0 0 0");
    assert_eq!(verdict(&changed(2, 2)), "4 1 0 0 0 0 0 0 0");
    assert_eq!(verdict(&changed(11, 7)), "4 2 0 0 0 0 0 0 0");
}

#[test]
fn bodies() {
    assert_eq!(verdict(&changed(4, 2)), "6 1 0 0 0 0 0 0 0"); // two threads, one record
    assert_eq!(verdict(&changed(5, 2)), "5 1 0 0 0 0 0 0 0"); // two words
    assert_eq!(verdict(&changed(7, 1)), "6 1 0 0 0 0 0 0 0"); // range 1
    assert_eq!(verdict(&changed(7, 2)), "0 0 0 0 0 0 0 0 1"); // range 2
    assert_eq!(verdict(&changed(7, 16)), "0 0 0 0 0 0 0 0 1"); // range 16
    assert_eq!(verdict(&changed(7, 17)), "6 1 0 0 0 0 0 0 0"); // range 17
    assert_eq!(verdict(&changed(8, 8)), "6 1 0 0 0 0 0 0 0"); // start value 8
    assert_eq!(verdict(&changed(14, 14)), "7 2 0 0 0 0 0 0 0"); // a flag under holds
    assert_eq!(verdict(&changed(15, 9)), "7 2 0 0 0 0 0 0 0"); // cut short
    assert_eq!(verdict(&changed(25, 0)), "6 4 0 0 0 0 0 0 0"); // no points
    assert_eq!(verdict(&changed(25, 2)), "5 4 0 0 0 0 0 0 0"); // an instruction is missing
    assert_eq!(verdict(&changed(30, 2)), "8 5 0 0 0 0 0 0 0"); // start in the outline
    assert_eq!(verdict(&changed(36, 17)), "6 6 0 0 0 0 0 0 0"); // no such rule
    assert_eq!(verdict(&changed(36, 30)), "8 6 0 0 0 0 0 0 0"); // not intervals
    assert_eq!(verdict(&changed(43, 1)), "5 6 0 0 0 0 0 0 0"); // a premise is missing
    assert_eq!(verdict(&changed(48, 2)), "6 7 0 0 0 0 0 0 0"); // no line 2
}

/// The small image with two registers, of range 8, and these owners and marks.
fn with_registers(owners: [u8; 2], marks: &[u8]) -> Vec<u8> {
    let header = [&[1, 1, 2, 8, 0][..], &owners, marks].concat();
    let length = header.len() as u8 + 2;
    [&[length, 0, 1, 0][..], &header, &bytes(SMALL)[9..]].concat()
}

#[test]
fn marks() {
    assert_eq!(verdict(&with_registers([1, 1], &[1, 1])), "0 0 0 0 0 0 0 0 1");
    assert_eq!(verdict(&with_registers([1, 1], &[0, 1])), "0 0 0 0 0 0 0 0 1");
    assert_eq!(verdict(&with_registers([1, 1], &[1, 2])), "6 1 0 0 0 0 0 0 0"); // no mark
    assert_eq!(verdict(&with_registers([1, 0], &[1, 1])), "6 1 0 0 0 0 0 0 0"); // marks first
    assert_eq!(verdict(&with_registers([1, 1], &[])), "5 1 0 0 0 0 0 0 0"); // no marks
    assert_eq!(verdict(&with_registers([1, 1], &[1])), "5 1 0 0 0 0 0 0 0");
    assert_eq!(verdict(&with_registers([1, 1], &[1, 1, 1])), "5 1 0 0 0 0 0 0 0");
}

/// One obligation: from start that register 1 is 0, by rule 27.
fn trusting(mark: u8) -> Vec<u8> {
    let header = [9, 0, 1, 0, 1, 1, 1, 8, 0, 1, mark];
    let formula = [8, 0, 2, 0, 28, 9, 1, 1, 0, 0];
    let mut rest = bytes(SMALL)[16..].to_vec();
    let rule = rest.iter().position(|&byte| byte == 20).expect("a line by rule 20");
    rest[rule] = 27;
    [&header[..], &formula, &rest].concat()
}

#[test]
fn rule_27_asks_for_the_mark() {
    assert_eq!(verdict(&trusting(1)), "0 0 0 0 0 0 0 0 1");
    assert_eq!(verdict(&trusting(0)), "22 0 1 1 0 0 0 1 0");
}

#[test]
fn obligations() {
    assert_eq!(verdict(&changed(39, 1)), "21 0 1 1 0 0 0 1 0"); // true to true
    assert_eq!(verdict(&changed(36, 27)), "22 0 1 1 0 0 0 1 0"); // another rule
}

#[test]
fn output() {
    let image = bytes(SMALL);
    let mut short = [9; 21];
    assert_eq!((check_into(&image, &mut short), short), (1, [9; 21]));
    let mut long = [9; 23];
    assert_eq!(check_into(&image, &mut long), 0);
    let expected = "14 00 07 00 00 00 00 00 00 00 00 00 00 00 00 00 00 00 00 00 01 00 09";
    assert_eq!(long.to_vec(), bytes(expected));
}

#[test]
fn obligations_are_in_order() {
    let load = || Instruction::from(Access::Load { register: 1, word: 1, acquiring: false });
    let branch = Instruction::Branch { test: Rc::new(Test::False), target: 0 };
    let list = duties(&[vec![load(), branch], vec![load()]]);
    let class = |duty: &Duty| match duty {
        Duty::Start { .. } => 1,
        Duty::Next { .. } => 2,
        Duty::Taken { .. } => 3,
        Duty::Kept { .. } => 4,
    };
    let classes: Vec<u8> = list.iter().map(class).collect();
    assert_eq!(classes, [1, 1, 2, 3, 2, 2, 4, 4, 4, 4, 4]);
    assert_eq!(
        list[6..],
        kept([(2, 0, 1, 0), (2, 1, 1, 0), (1, 0, 2, 0), (1, 1, 2, 0), (1, 2, 2, 0)])
    );
}

fn kept<const N: usize>(places: [(u8, u8, u8, u8); N]) -> [Duty; N] {
    places.map(|(thread, point, actor, action)| Duty::Kept { thread, point, actor, action })
}

#[test]
fn class_4_goes_by_the_actor() {
    let load = || Instruction::from(Access::Load { register: 1, word: 1, acquiring: false });
    let list = duties(&[vec![load(), load()], vec![load()], Vec::new()]);
    let by_first = [
        (2, 0, 1, 0),
        (2, 1, 1, 0),
        (3, 0, 1, 0), // the first action of thread 1
        (2, 0, 1, 1),
        (2, 1, 1, 1),
        (3, 0, 1, 1), // its second
        (1, 0, 2, 0),
        (1, 1, 2, 0),
        (1, 2, 2, 0),
        (3, 0, 2, 0), // the action of thread 2
    ];
    assert_eq!(list[6..], kept(by_first));
}
