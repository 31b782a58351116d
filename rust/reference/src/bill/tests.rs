//! Bills counted by hand.
use super::{bill, bill_into, Bill, Tariff};
use crate::assemble::Plan;
use crate::checker::obligations::duties;
use crate::formula::parse::Counts;
use crate::formula::{Assertion, Test, Value};
use crate::image::{Header, Instruction, Program, Statement};
use crate::proof::{consequence, implies, triple, Lemma};
use std::rc::Rc;

/// The scope page's small image, with a range of 8.
const SMALL: [u8; 50] = [
    7, 0, 1, 0, 1, 1, 0, 8, 0, 5, 0, 2, 0, 28, 11, 8, 3, 0, 2, 0, 27, 3, 0, 3, 0, 1, 4, 0, 4, 0, 1,
    0, 10, 0, 5, 0, 20, 0, 0, 2, 0, 1, 0, 0, 4, 0, 6, 0, 1, 0,
];

/// Each price is another power of ten, so that a bill shows how many obligations of each class there are.
const TELLING: Tariff = Tariff { start: 1, step: 10, taken: 100, interference: 1000, least: 0 };

fn charged(cents: u32, billed: u32, threads: [u32; 4]) -> Bill {
    Bill { code: 0, cents, billed, threads }
}

/// Thread 1: two assignments; thread 2: a branch and an assignment; thread 3: none. Every assertion is "true".
fn three_threads() -> Vec<u8> {
    let counts = Counts { threads: 3, words: 1, registers: 2, range: 8 };
    let assign = |register| Instruction::assign(register, Value::Constant(1));
    let branch = Instruction::Branch { test: Rc::new(Test::False), target: 0 };
    let threads = vec![vec![assign(1), assign(1)], vec![branch, assign(2)], Vec::new()];
    let points = threads.iter().map(|code| code.len() + 1);
    let truth = Rc::new(Assertion::truth());
    let outline = points.map(|points| vec![truth.clone(); points]).collect();
    let header = Header::cleared(counts, vec![0], vec![1, 2]);
    let program = Program { header, threads, outline };
    let lines =
        duties(&program.threads).iter().map(|duty| Some(line(duty.wanted(&program)))).collect();
    Plan::new(program, lines).bytes()
}

/// A line with a right side of "true".
fn line(wanted: Statement) -> Lemma {
    let (thread, point) = wanted.place();
    match wanted {
        Statement::Triple { left, right, .. } => {
            let kept = triple(2, (thread, point), right.clone(), right.clone(), &[]);
            consequence(left, &kept, right)
        }
        Statement::Implication { left, right } => implies(20, left, right, &[]),
        Statement::Inclusion { .. } => panic!("an obligation is no inclusion"),
    }
}

#[test]
fn the_small_image_has_one_obligation() {
    assert_eq!(bill(&SMALL, &TELLING, 0), charged(1, 1, [1, 0, 0, 0]));
}

#[test]
fn every_class_belongs_to_a_thread() {
    // Class 1: one each. Class 2: two of thread 1, two of thread 2. Class 3: the branch of thread 2. Class 4: two
    // actions of thread 1 under three points of thread 2 and one of thread 3; one of thread 2 under three and one.
    let threads = [1 + 2 * 10 + 8 * 1000, 1 + 2 * 10 + 100 + 4 * 1000, 1, 0];
    assert_eq!(bill(&three_threads(), &TELLING, 7), charged(12_143, 8, threads));
}

#[test]
fn each_class_has_its_own_price() {
    let image = three_threads();
    let none = Tariff::default();
    let with = |tariff: Tariff| bill(&image, &tariff, 0);
    assert_eq!(
        with(Tariff { start: 65_535, ..none }),
        charged(196_605, 1, [65_535, 65_535, 65_535, 0])
    );
    assert_eq!(with(Tariff { step: 3, ..none }), charged(12, 1, [6, 6, 0, 0]));
    assert_eq!(with(Tariff { taken: 5, ..none }), charged(5, 1, [0, 5, 0, 0]));
    assert_eq!(
        with(Tariff { interference: 65_535, ..none }),
        charged(786_420, 1, [524_280, 262_140, 0, 0])
    );
}

#[test]
fn the_least_charge_is_in_no_sum() {
    let with = |least| bill(&SMALL, &Tariff { least, start: 40, ..Tariff::default() }, 0);
    assert_eq!(with(39), charged(40, 1, [40, 0, 0, 0]));
    assert_eq!(with(40), charged(40, 1, [40, 0, 0, 0]));
    assert_eq!(with(41), charged(41, 1, [40, 0, 0, 0]));
    assert_eq!(with(65_535), charged(65_535, 1, [40, 0, 0, 0]));
}

#[test]
fn a_bill_of_nothing_counts() {
    assert_eq!(bill(&SMALL, &Tariff::default(), 0), charged(0, 1, [0; 4]));
}

#[test]
fn errors() {
    let refused = |code, billed| Bill { code, billed, ..Bill::default() };
    let mut other_rule = SMALL;
    other_rule[36] = 27;
    let tariff = Tariff { least: 500, ..TELLING };
    assert_eq!(bill(&other_rule, &tariff, 5), refused(30, 5));
    assert_eq!(bill(&[], &tariff, u32::MAX), refused(30, u32::MAX)); // before 31
    assert_eq!(bill(&SMALL, &tariff, u32::MAX), refused(31, u32::MAX));
    assert_eq!(bill(&SMALL, &tariff, u32::MAX - 1), charged(500, u32::MAX, [1, 0, 0, 0]));
}

#[test]
fn answer() {
    let mut short = [9; 5];
    assert_eq!((bill_into(&SMALL, &TELLING, 3, &mut short), short), (1, [9; 5]));
    assert_eq!(bill_into(&[], &TELLING, u32::MAX, &mut short), 1); // before 30 and 31
    let mut long = [9; 7];
    assert_eq!(bill_into(&SMALL, &TELLING, 3, &mut long), 0);
    assert_eq!(long, [1, 4, 1, 0, 0, 0, 9]);
    let mut refused = [9; 7];
    assert_eq!(bill_into(&[], &TELLING, 3, &mut refused), 30);
    assert_eq!(refused, [0, 3, 0, 0, 0, 0, 9]);
}
