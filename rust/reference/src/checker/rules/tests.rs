//! Rows and truth tables worked out by hand.
use super::rows::implies_by_rows;
use super::table::implies_by_table;
use super::Fit;
use crate::formula::{Assertion, Test, Value};
use std::rc::Rc;

/// By rows of values from 0 to 7.
fn by_rows(left: &Test, right: &Test) -> Fit {
    implies_by_rows(left, right, 8)
}

fn register_is(number: u8, value: u8) -> Test {
    Test::equal(Value::Register(number), Value::Constant(value))
}

#[test]
fn sums_by_rows_are_modulo_eight() {
    let sum = Value::sum(Value::Constant(7), Value::Register(1));
    let zero = Test::equal(sum, Value::Constant(0));
    assert_eq!(by_rows(&register_is(1, 1), &zero), Some(true));
    assert_eq!(by_rows(&register_is(1, 2), &zero), Some(false));
}

#[test]
fn four_names_are_allowed_and_a_flag_more_is_not() {
    let same = |number| Test::equal(Value::Register(number), Value::Register(number));
    let four = Test::and(Test::and(same(1), same(2)), Test::and(same(3), same(4)));
    assert_eq!(by_rows(&four, &four), Some(true));
    let more = Test::and(four, Test::Unsync(1));
    assert_eq!(by_rows(&more, &more), None);
}

#[test]
fn rows_are_counted_from_the_range() {
    let same = |number| Test::equal(Value::Register(number), Value::Register(number));
    let over = |names: u8| (1..=names).map(same).reduce(Test::and).expect("a name");
    for (range, most) in [(2, 12), (3, 7), (4, 6), (8, 4), (9, 3), (15, 3), (16, 3)] {
        assert_eq!(implies_by_rows(&over(most), &over(most), range), Some(true), "{range}");
        assert_eq!(implies_by_rows(&over(most + 1), &over(most), range), None, "{range}");
    }
    let flagged = Test::and(over(3), Test::Unsync(1));
    assert_eq!(implies_by_rows(&flagged, &flagged, 16), None);
    assert_eq!(implies_by_rows(&flagged, &flagged, 15), None);
    assert_eq!(implies_by_rows(&flagged, &flagged, 12), Some(true));
}

#[test]
fn values_and_sums_are_those_of_the_range() {
    let next = |value: u8| Value::sum(Value::Constant(value), Value::Constant(1));
    for range in 2..=16 {
        let last = range - 1;
        let below = Test::less(Value::Register(1), Value::Constant(last));
        let at_last = Test::equal(Value::Register(1), Value::Constant(last));
        let some = Test::or(below.clone(), at_last);
        assert_eq!(implies_by_rows(&Test::truth(), &some, range), Some(true));
        assert_eq!(implies_by_rows(&Test::truth(), &below, range), Some(false));
        let wraps = Test::equal(next(last), Value::Constant(0));
        assert_eq!(implies_by_rows(&Test::truth(), &wraps, range), Some(true));
        let stays = Test::equal(next(last - 1), Value::Constant(last));
        assert_eq!(implies_by_rows(&Test::truth(), &stays, range), Some(true));
    }
}

#[test]
fn every_row_counts() {
    let low = Test::less(Value::Register(1), Value::Constant(7));
    let some = Test::or(low, Test::Covered(1));
    assert_eq!(by_rows(&Test::truth(), &some), Some(false));
    let every = Test::or(some, Test::negated(Test::Covered(1)));
    assert_eq!(by_rows(&Test::truth(), &every), Some(true));
}

fn leaf(value: u8) -> Rc<Assertion> {
    Assertion::holds(register_is(1, value)).into()
}

#[test]
fn premises_of_a_table_are_used() {
    let (a, b, c) = (leaf(0), leaf(1), leaf(2));
    assert_eq!(implies_by_table((&a, &c), &[(&a, &b)]), Some(false));
    assert_eq!(implies_by_table((&a, &c), &[(&a, &b), (&b, &c)]), Some(true));
}

#[test]
fn ten_leaves_are_the_most() {
    let joined = |count: u8| {
        let leaves = (1..=count).map(|number| Assertion::holds(register_is(number, 0)));
        Rc::new(leaves.reduce(Assertion::both).expect("a leaf"))
    };
    assert_eq!(implies_by_table((&joined(10), &joined(10)), &[]), Some(true));
    assert_eq!(implies_by_table((&joined(11), &joined(11)), &[]), None);
}
