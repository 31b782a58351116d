//! Exchange and fetch-add.

use super::*;

fn exchange(value: u8) -> Program {
    program(Access::Exchange { register: 1, word: 1, value: Value::Constant(value).into() }.into())
}

fn fetch_add(value: u8) -> Program {
    program(Access::FetchAdd { register: 1, word: 1, value: Value::Constant(value).into() }.into())
}

/// [cov x];one x
fn till_last() -> Interval {
    Interval::chop(Interval::all(Test::Covered(1)), Interval::One(1))
}

#[test]
fn rule_1_keeps_neither_the_register_nor_the_word() {
    for program in [exchange(3), fetch_add(2)] {
        breaks(&program, &register_is(0), &register_is(0));
        let seen = Assertion::sees(2, word_is(2, Value::Register(1)));
        breaks(&program, &seen, &seen);
        let word = Assertion::sees(1, word_is(1, Value::Constant(1)));
        breaks(&program, &word, &word);
        let other = Assertion::sees(2, word_is(2, Value::Register(2)));
        holds_after(&program, &other, &other);
    }
}

#[test]
fn rule_13_passes_on_nothing_about_the_register() {
    let passed_on = |j: Interval| {
        let sees = Assertion::sees;
        let known = Assertion::both(sees(2, till_last()), sees(1, j.clone()));
        let left = Assertion::both(sees(1, till_last()), known);
        let behind = Interval::chop(Interval::all(Test::Unsync(1)), j);
        (left, sees(2, Interval::chop(Interval::all(Test::Covered(1)), behind)))
    };
    for program in [exchange(3), fetch_add(2)] {
        let (left, right) = passed_on(word_is(2, Value::Register(1)));
        breaks(&program, &left, &right);
        let (left, right) = passed_on(word_is(2, Value::Register(2)));
        holds_after(&program, &left, &right);
    }
}

#[test]
fn rule_47_is_about_the_old_value_of_the_word() {
    let left = |word| Assertion::sees(1, word_is(word, Value::Constant(1)));
    for program in [exchange(3), fetch_add(2)] {
        holds_after(&program, &left(1), &register_is(1));
        breaks(&program, &left(1), &register_is(3));
        let zero = Assertion::sees(1, word_is(2, Value::Constant(0)));
        breaks(&program, &zero, &register_is(0));
    }
}

#[test]
fn rules_48_and_49_name_what_is_written() {
    let left = Assertion::sees(1, till_last());
    let after = |value: Value| Assertion::sees(1, Interval::one_equal(1, value));
    let f = || Value::Constant(2);
    let sum = || Value::sum(Value::Register(1), f());
    holds_after(&exchange(2), &left, &after(f()));
    breaks(&exchange(2), &left, &after(sum()));
    holds_after(&fetch_add(2), &left, &after(sum()));
    breaks(&fetch_add(2), &left, &after(f()));

    let observed = Assertion::both(left, Assertion::sees(2, till_last()));
    let seen = |value: Value| {
        let covered = Interval::all(Test::Covered(1));
        Assertion::sees(2, Interval::chop(covered, Interval::one_equal(1, value)))
    };
    holds_after(&fetch_add(2), &observed, &seen(sum()));
    breaks(&fetch_add(2), &observed, &seen(f()));
}

#[test]
fn rules_7_and_9_do_not_serve() {
    let uncovered = Interval::all(Test::negated(Test::Covered(1)));
    let left = Assertion::both(
        Assertion::sees(1, Interval::One(1)),
        Assertion::sees(2, uncovered.clone()),
    );
    let settled = Interval::one_equal(1, Value::Constant(3));
    breaks(&exchange(3), &left, &Assertion::sees(2, Interval::chop(uncovered, settled)));

    let low =
        |value: Value| Assertion::sees(2, Interval::all(Test::less(value, Value::Constant(3))));
    let both = Assertion::both(low(Value::Word(1)), low(Value::Constant(2)));
    breaks(&fetch_add(2), &both, &low(Value::Word(1)));
}
