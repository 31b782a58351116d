//! Pairs, and two assignments at once.

use super::*;

/// A store of the value to word 1 with a note for register 1.
fn noting(stored: Value, noted: Value) -> Program {
    let store = Access::Store { word: 1, value: stored.into(), releasing: false };
    program(Instruction::pair(store, Note::new(1, noted)))
}

fn settled(value: Value) -> Assertion {
    Assertion::sees(1, Interval::one_equal(1, value))
}

#[test]
fn a_line_for_the_first_half_is_not_one_for_the_pair() {
    let pair = noting(Value::Constant(3), Value::Constant(2));
    // Rule 1 keeps it, and the note does not.
    breaks(&pair, &register_is(0), &register_is(0));
    holds_after(&pair, &Assertion::truth(), &register_is(2));
}

#[test]
fn rule_50_replaces_what_the_note_sets() {
    let plus_one = Value::sum(Value::Register(1), Value::Constant(1));
    let pair = noting(Value::Register(1), plus_one.clone());
    let last = Assertion::sees(1, Interval::One(1));
    // Rule 6 speaks of the old value: not replaced, it is false of the new one.
    breaks(&pair, &last, &settled(Value::Register(1)));
    holds_after(&pair, &register_is(0), &register_is(1));
    breaks(&pair, &register_is(0), &register_is(0));
}

#[test]
fn both_formulas_are_worked_out_before_the_step() {
    let plus_one = |register: u8| Value::sum(Value::Register(register), Value::Constant(1));
    let pair = noting(plus_one(1), Value::Constant(5));
    let start = Assertion::both(register_is(0), Assertion::sees(1, Interval::One(1)));
    holds_after(&pair, &start, &settled(Value::Constant(1)));
    breaks(&pair, &start, &settled(plus_one(1)));
}

#[test]
fn two_registers_are_replaced_at_once() {
    let [one, two] = [1, 2].map(Value::Register);
    let sum = Value::sum(two.clone(), Value::Constant(1));
    let trade = program(Instruction::trade(Note::new(1, sum), Note::new(2, one.clone())));
    let less = |a: Value, b: Value| Assertion::holds(Test::less(a, b));
    let after = less(two.clone(), one.clone());
    // r1 < r2 + 1, by rule 2.
    let before = less(one.clone(), Value::sum(two.clone(), Value::Constant(1)));
    holds_after(&trade, &before, &after);
    // One after the other, the left side is always true: of r1 = 0 and r2 = 7 the right side is not.
    let header = Header { marks: vec![0, 0], ..trade.header.clone() };
    let open = Program { header, ..trade };
    holds_after(&open, &before, &after);
    breaks(&open, &Assertion::truth(), &after);
}
