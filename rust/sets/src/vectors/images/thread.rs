//! Codes 5, 6, 8, 9 and 23 in thread records, first halves of pairs among them.

use super::{Case, Draft};
use crate::vectors::tour::{place_of, Spare};
use reference::checker::frames::{FORMULA, HEADER, THREAD};

pub fn cases() -> Vec<Case> {
    [lengths(), numbers(), sorts(), deep_sorts(), owners(), operands()].concat()
}

fn lengths() -> Vec<Case> {
    let instruction = [3, 1, 0, 1, 0];
    let with_points = |points: u8, instructions: usize| {
        [&[points][..], &instruction.repeat(instructions)].concat()
    };
    let mut cases = Vec::new();
    for (name, n) in [("first", 0), ("last", 1)] {
        let put = |label: &str, body: &[u8]| {
            Draft::new().put(THREAD, n, body).case(format!("{label}, {name} thread"))
        };
        cases.push(put("5: no bytes", &[]));
        cases.push(put("6: 0 points, no instruction", &[0]));
        cases.push(put("5: 0 points, one instruction", &with_points(0, 1)));
        cases.push(put("5: 0 points, a byte behind", &[0, 0]));
        cases.push(put("5: 1 point, one instruction", &with_points(1, 1)));
        cases.push(put("5: 2 points, no instruction", &[2]));
        cases.push(put("5: 9 points, 7 instructions", &with_points(9, 7)));
        cases.push(put("the most points: 16 with 15 instructions", &with_points(16, 15)));
        cases.push(put("6: 17 points, 16 instructions", &with_points(17, 16)));
        cases.push(put("5: 17 points, 15 instructions", &with_points(17, 15)));
        cases.push(put("6: 255 points, 254 instructions", &with_points(255, 254)));
        cases.push(put("5: 255 points, 255 instructions", &with_points(255, 255)));
        cases.push(
            Draft::new().shorten(THREAD, n, 1).case(format!("5: a byte too few, {name} thread")),
        );
        cases.push(
            Draft::new().append(THREAD, n, &[0]).case(format!("5: a byte too many, {name} thread")),
        );
    }
    cases
}

/// The tour with one field changed of the instruction with an operation.
fn with_field(operation: usize, field: usize, byte: u8) -> Draft {
    let (thread, place) = place_of(operation);
    Draft::new().set(THREAD, thread, place + field, byte)
}

/// The tour with another formula for the instruction with an operation.
fn with_formula(operation: usize, formula: u16) -> Draft {
    let (thread, place) = place_of(operation);
    Draft::new().set_number(THREAD, thread, place + 3, formula)
}

fn numbers() -> Vec<Case> {
    let formulas = Draft::new().count(FORMULA) as u16;
    let mut cases = Vec::new();
    for operation in 0..13 {
        for (field, name) in [(1, "a"), (2, "b")] {
            for byte in [0, 1, 2, 3, 4, 5, 7, 8, 255] {
                let label =
                    format!("range, unused field: field {name} of operation {operation} is {byte}");
                cases.push(with_field(operation, field, byte).case(label));
            }
        }
        for formula in [0, 1, formulas, formulas + 1, 0xffff] {
            let label = format!("formula number: operation {operation} has formula {formula}");
            cases.push(with_formula(operation, formula).case(label));
        }
        // Unknown operations have five bytes.
        let code = if operation < 9 { 6 } else { 5 };
        for other in [13, 14, 255] {
            let label = format!("{code}: operation {other} in place of {operation}");
            cases.push(with_field(operation, 0, other).case(label));
        }
        for other in (0..13).filter(|&other| usize::from(other) != operation) {
            let label = format!("fields, lengths: operation {other} in place of {operation}");
            cases.push(with_field(operation, 0, other).case(label));
        }
    }
    cases.push(Draft::new().set(THREAD, 1, 1, 13).case("6: operation 13 in the last thread"));
    cases.push(Draft::new().set(THREAD, 1, 7, 3).case("6: word 3 in the last thread"));
    cases
}

fn sorts() -> Vec<Case> {
    let draft = Draft::new();
    let spares = [
        ("a value", Spare::Value),
        ("a word", Spare::Word),
        ("a test", Spare::Test),
        ("unsync", Spare::Unsync),
        ("cov", Spare::Covered),
        ("an interval", Spare::Interval),
        ("an assertion", Spare::HiddenStart),
    ];
    let mut cases = Vec::new();
    for operation in [0, 3, 4, 5, 6, 7, 8, 9, 10, 11, 12] {
        for (name, which) in spares {
            let label = format!("sort of a formula: operation {operation} has {name}");
            cases.push(with_formula(operation, draft.spare(which)).case(label));
        }
    }
    cases
}

/// A spare formula replaced by one with a word or a flag deep inside.
fn deep_sorts() -> Vec<Case> {
    let draft = Draft::new();
    let (value, test) = (draft.spare(Spare::Value), draft.spare(Spare::Test));
    let with = |operation, number: u16, body: &[u8]| {
        with_formula(operation, number).put(FORMULA, usize::from(number) - 1, body)
    };
    let sound = with(3, value, &[3, 0, 1, 3, 1, 1, 0, 1]);
    let word = with(3, value, &[3, 0, 1, 3, 1, 1, 2, 1]);
    vec![
        sound.case("accepted: a sum of sums in operation 3"),
        word.case("8: word deep in the value of operation 3"),
        with(7, value, &[3, 0, 1, 3, 1, 4, 2, 1]).case("8: word deep in the value of operation 7"),
        with(8, value, &[3, 0, 1, 3, 1, 2, 2, 1]).case("8: word deep in the value of operation 8"),
        with(6, test, &[13, 8, 9, 0, 1, 2, 2]).case("8: word deep in the test of a branch"),
        with(6, test, &[11, 12, 8, 14, 2]).case("8: unsync deep in the test of a branch"),
        with(6, test, &[12, 9, 1, 1, 0, 0, 15, 1]).case("8: cov deep in the test of a branch"),
    ]
}

fn owners() -> Vec<Case> {
    let draft = Draft::new();
    let mut cases = Vec::new();
    for operation in [0, 1, 2] {
        let label = format!("9: operation {operation} sets another thread's register");
        cases.push(with_field(operation, 1, 2).case(label));
    }
    for operation in [0, 3, 4, 5] {
        let label = format!("9: operation {operation} reads another thread's register");
        cases.push(with_formula(operation, draft.spare(Spare::OtherRegister)).case(label));
    }
    for operation in [9, 10, 11, 12] {
        let label = format!("9: operation {operation} reads another thread's register");
        cases.push(with_formula(operation, draft.formula_number(&[1, 1])).case(label));
    }
    cases.push(with_field(12, 1, 1).case("9: operation 12 sets another thread's register"));
    for operation in [7, 8] {
        let label = format!("9: operation {operation} sets another thread's register");
        cases.push(with_field(operation, 2, 1).case(label));
        let label = format!("9: operation {operation} reads another thread's register");
        cases.push(with_formula(operation, draft.formula_number(&[1, 1])).case(label));
    }
    let branch = with_formula(6, draft.spare(Spare::OtherTest));
    cases.push(branch.case("9: operation 6 reads another thread's register"));
    for (register, owner) in [(1, 2), (2, 1), (3, 2), (4, 1)] {
        let label = format!("9: register {register} belongs to thread {owner}");
        cases.push(Draft::new().set(HEADER, 0, 5 + register, owner).case(label));
    }
    cases
}

/// Code 23: operation 7 sets register 2 and has operand r4, operation 8 the other way round.
fn operands() -> Vec<Case> {
    let draft = Draft::new();
    let [r1, r2, r4] = [1, 2, 4].map(|register| draft.formula_number(&[1, register]));
    let spare = draft.spare(Spare::Value);
    let deep = |operation, register: u8| {
        let bytes = [3, 3, 0, 1, 0, 2, 3, 1, register, 0, 1];
        with_formula(operation, spare).put(FORMULA, usize::from(spare) - 1, &bytes)
    };
    // The swap of r3 in thread 1 made an exchange.
    let in_first = |register| with_field(5, 0, 7).set(THREAD, 0, 1 + 5 * 5 + 2, register);
    vec![
        with_formula(7, r2).case("23: the operand of operation 7 is its register"),
        with_formula(8, r4).case("23: the operand of operation 8 is its register"),
        with_field(7, 2, 4).case("23: the register of operation 7 is its operand"),
        with_field(8, 2, 2).case("23: the register of operation 8 is its operand"),
        deep(7, 2).case("23: the operand of operation 7 has its register deep inside"),
        deep(8, 4).case("23: the operand of operation 8 has its register deep inside"),
        deep(7, 4).case("accepted: the operand of operation 7 has the other register deep inside"),
        deep(8, 2).case("accepted: the operand of operation 8 has the other register deep inside"),
        with_formula(0, r1).case("accepted: an assignment names its own register"),
        in_first(3).case("23: an exchange in thread 1 names its register"),
        in_first(1).case("accepted: an exchange in thread 1 names another instruction's register"),
    ]
}
