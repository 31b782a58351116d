//! Reading, writing, nesting, names and replacement, worked out by hand.
use super::atoms::Atoms;
use super::encode::Encode;
use super::nesting::Nesting;
use super::parse::{parse, Counts, Fault};
use super::replace::{Replace, Replacement};
use super::{Assertion, Formula, Interval, Test, Value};
use std::rc::Rc;

const COUNTS: Counts = Counts { threads: 2, words: 2, registers: 1, range: 8 };

fn read(bytes: &[u8]) -> Result<Formula, Fault> {
    parse(bytes, COUNTS)
}

#[test]
fn what_is_written_is_read() {
    let first = Interval::one_equal(1, Value::Constant(0));
    let seen = Interval::chop(first, Interval::all(Test::Unsync(2)));
    let test = Test::equal(Value::Register(1), Value::Constant(1));
    let tree = Assertion::either(Assertion::holds(test), Assertion::sees(2, seen));
    assert_eq!(read(&tree.encode()), Ok(tree.into()));
}

#[test]
fn words_are_refused_under_holds() {
    assert_eq!(read(&[28, 9, 2, 1, 0, 0]), Err(Fault::Form));
    assert!(read(&[28, 9, 1, 1, 0, 0]).is_ok());
}

#[test]
fn nesting_sixteen_is_the_last() {
    let deep = |n: usize| [vec![11; n - 1], vec![8]].concat();
    assert_eq!(read(&deep(16)).expect("well formed").nesting(), 16);
    assert_eq!(read(&deep(17)), Err(Fault::Form));
    assert_eq!(Value::Constant(3).nesting(), 1);
    assert_eq!(Assertion::truth().nesting(), 3);
}

#[test]
fn rest_and_cut_are_refused() {
    assert_eq!(read(&[8, 8]), Err(Fault::Form));
    assert_eq!(read(&[11]), Err(Fault::Form));
}

#[test]
fn replacement_leaves_flags_alone() {
    let with = |value: Value| Test::and(Test::equal(value, Value::Constant(0)), Test::Unsync(1));
    let two = Rc::new(Value::Constant(2));
    let replaced = with(Value::Word(1)).replace(&[Replacement { leaf: Value::Word(1), by: two }]);
    assert_eq!(*replaced, with(Value::Constant(2)));
}

#[test]
fn replacement_is_at_once() {
    let sum = |a: Value, b: Value| Rc::new(Value::sum(a, b));
    let (r1, r2, r3) = (Value::Register(1), Value::Register(2), Value::Register(3));
    let trade = [
        Replacement { leaf: r1.clone(), by: sum(r2.clone(), r3.clone()) },
        Replacement { leaf: r2.clone(), by: r1.clone().into() },
    ];
    let e = Test::less(sum(r1.clone(), r2.clone()), r3.clone());
    // One after the other would have r1 in the place of the new r2 too.
    let expected = Test::less(Value::sum(sum(r2, r3.clone()), r1), r3);
    assert_eq!(*e.replace(&trade), expected);
}

#[test]
fn a_word_occurs_in_every_role() {
    assert!(Interval::One(2).has_word(2));
    assert!(Interval::all(Test::Covered(2)).has_word(2));
    assert!(!Interval::all(Test::Covered(2)).has_word(1));
}

#[test]
fn constants_are_below_the_range() {
    for range in 2..=16 {
        let counts = Counts { range, ..COUNTS };
        assert!(parse(&[0, range - 1], counts).is_ok());
        assert_eq!(parse(&[0, range], counts), Err(Fault::Range));
    }
}
