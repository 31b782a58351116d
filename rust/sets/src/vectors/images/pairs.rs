//! Codes 5, 6, 8 and 9 in instructions of ten bytes: operations 9 to 12.

use super::{Case, Draft};
use crate::generate::harness;
use crate::vectors::tour::{place_of, Spare};
use reference::checker::frames::{FORMULA, THREAD};
use reference::checker::limits::POINTS;
use reference::formula::parse::Counts;
use reference::formula::Value;
use reference::image::{Access, Header, Instruction, Note, Thread};

const OPERATIONS: [usize; 4] = [9, 10, 11, 12];
/// The thread of the tour that has them, from 0.
const T: usize = 1;

pub fn cases() -> Vec<Case> {
    [lengths(), bodies(), numbers(), sorts(), owners(), mixed(), points()].concat()
}

/// Where the second half of an operation begins in the thread's body.
fn second(operation: usize) -> usize {
    place_of(operation).1 + 5
}

/// The tour with one field of a second half changed.
fn with_field(operation: usize, field: usize, byte: u8) -> Draft {
    Draft::new().set(THREAD, T, second(operation) + field, byte)
}

/// The tour with another formula for a second half.
fn with_formula(operation: usize, formula: u16) -> Draft {
    Draft::new().set_number(THREAD, T, second(operation) + 3, formula)
}

/// Bytes taken out of the thread of the tour, or put in.
fn spliced(place: usize, taken: usize, put: &[u8]) -> Draft {
    let mut draft = Draft::new();
    draft.body(THREAD, T).splice(place..place + taken, put.iter().copied());
    draft
}

/// Ten bytes for 9 to 12, five for any other.
fn lengths() -> Vec<Case> {
    let mut cases = Vec::new();
    for operation in OPERATIONS {
        let at = second(operation);
        let mut add = |label: &str, draft: Draft| {
            cases.push(draft.case(format!("5: operation {operation} {label}")));
        };
        add("with a byte too few", spliced(at + 4, 1, &[]));
        add("with a byte too many", spliced(at + 5, 0, &[0]));
        add("with fifteen bytes", spliced(at + 5, 0, &[0, 2, 0, 1, 0]));
    }
    // What follows is taken for the second half: another pair's first one, so that the lengths fit, or a branch.
    for (code, operation) in [(6, 9), (6, 10), (6, 11), (5, 12)] {
        let label = format!("{code}: operation {operation} with five bytes");
        cases.push(spliced(second(operation), 5, &[]).case(label));
    }
    for operation in [7, 8] {
        let at = place_of(operation).1 + 5;
        let label = format!("5: operation {operation} with ten bytes");
        cases.push(spliced(at, 0, &[0, 2, 0, 1, 0]).case(label));
    }
    cases
}

/// Bodies with as many bytes as their operations ask for, and with others.
fn bodies() -> Vec<Case> {
    let pair = |operation: u8, second: u8| [operation, 1, 0, 1, 0, second, 1, 0, 1, 0];
    let body = |points: u8, code: &[[u8; 10]]| [&[points][..], &code.concat()].concat();
    let put = |label: &str, body: &[u8]| Draft::new().put(THREAD, T, body).case(label);
    let many = |count: usize| vec![pair(9, 0); count];
    vec![
        put("5: 0 points and a pair", &body(0, &[pair(9, 0)])),
        put("5: 1 point and a pair", &body(1, &[pair(9, 0)])),
        put("5: 2 points and two pairs", &body(2, &[pair(9, 0), pair(10, 0)])),
        put("5: 3 points and a pair", &body(3, &[pair(9, 0)])),
        put("5: 2 points and a first half", &[2, 12, 1, 0, 1, 0]),
        put("5: 2 points and nine bytes", &body(2, &[pair(11, 0)])[..10]),
        put("5: 2 points and eleven bytes", &[&body(2, &[pair(11, 0)])[..], &[0]].concat()),
        put("6: a second half of operation 9 is no pair", &body(2, &[pair(9, 9)])),
        put("6: a second half of operation 12 is no pair", &body(2, &[pair(12, 12)])),
        put("5: ten bytes of an unknown operation", &body(2, &[pair(13, 0)])),
        put("6: twice five bytes of an unknown operation", &body(3, &[pair(13, 13)])),
        put("6: 17 points and 16 pairs", &body(17, &many(16))),
        put("5: 17 points and 15 pairs", &body(17, &many(15))),
        put("6: 255 points and 254 pairs", &body(255, &many(254))),
        put("5: 255 points and 255 pairs", &body(255, &many(255))),
    ]
}

fn numbers() -> Vec<Case> {
    let formulas = Draft::new().count(FORMULA) as u16;
    let mut cases = Vec::new();
    for operation in OPERATIONS {
        for other in (1..=13).chain([255]) {
            let label = format!("6: operation {other} in the second half of {operation}");
            cases.push(with_field(operation, 0, other).case(label));
        }
        for byte in [0, 5, 255] {
            let label = format!("6: register {byte} in the second half of {operation}");
            cases.push(with_field(operation, 1, byte).case(label));
        }
        for byte in [1, 2, 255] {
            let label = format!("6: field b is {byte} in the second half of {operation}");
            cases.push(with_field(operation, 2, byte).case(label));
        }
        for formula in [0, formulas + 1, 0xffff] {
            let label = format!("6: formula {formula} in the second half of {operation}");
            cases.push(with_formula(operation, formula).case(label));
        }
        let other = with_field(operation, 1, 4);
        cases.push(other.case(match operation {
            12 => "6: operation 12 sets register 4 twice".into(),
            _ => format!("accepted: operation {operation} with another register noted"),
        }));
    }
    let first = Draft::new().set(THREAD, T, place_of(12).1 + 1, 2);
    cases.push(first.case("6: operation 12 sets register 2 twice"));
    cases
}

fn sorts() -> Vec<Case> {
    let draft = Draft::new();
    let mut cases = Vec::new();
    for operation in OPERATIONS {
        for (name, which) in [
            ("a word", Spare::Word),
            ("a test", Spare::Test),
            ("unsync", Spare::Unsync),
            ("cov", Spare::Covered),
            ("an interval", Spare::Interval),
            ("an assertion", Spare::HiddenStart),
        ] {
            let label = format!("8: {name} in the second half of {operation}");
            cases.push(with_formula(operation, draft.spare(which)).case(label));
        }
        let value = draft.spare(Spare::Value);
        let deep =
            |body: &[u8]| with_formula(operation, value).put(FORMULA, usize::from(value) - 1, body);
        let label = format!("8: a word deep in the second half of {operation}");
        cases.push(deep(&[3, 0, 1, 3, 1, 2, 2, 1]).case(label));
        let label = format!("accepted: a sum of sums in the second half of {operation}");
        cases.push(deep(&[3, 0, 1, 3, 1, 2, 1, 4]).case(label));
    }
    cases
}

fn owners() -> Vec<Case> {
    let draft = Draft::new();
    let foreign = draft.formula_number(&[1, 1]);
    let value = draft.spare(Spare::Value);
    let mut cases = Vec::new();
    for operation in OPERATIONS {
        for register in [1, 3] {
            let label = format!("9: register {register} set in the second half of {operation}");
            cases.push(with_field(operation, 1, register).case(label));
        }
        let label = format!("9: register 1 read in the second half of {operation}");
        cases.push(with_formula(operation, foreign).case(label));
        let deep = with_formula(operation, value);
        let deep = deep.put(FORMULA, usize::from(value) - 1, &[3, 1, 2, 3, 0, 1, 1, 3]);
        cases.push(deep.case(format!("9: register 3 deep in the second half of {operation}")));
    }
    cases
}

/// Faults in both halves, and in a half and another instruction: the lowest code of the record.
fn mixed() -> Vec<Case> {
    let test = |draft: Draft, place: usize| {
        let number = draft.spare(Spare::Test);
        draft.set_number(THREAD, T, place + 3, number)
    };
    let set = |draft: Draft, place: usize, byte: u8| draft.set(THREAD, T, place, byte);
    let (first, then) = (place_of(9).1, second(9));
    let (trade, other) = (place_of(12).1, second(12));
    let new = Draft::new;
    let without = |place: usize| test(new(), 6).set_number(THREAD, T, place + 3, 0);
    vec![
        without(first).case("6 before 8: sort first, no formula in a first half later"),
        without(then).case("6 before 8: sort first, no formula in a second half later"),
        without(trade).case("6 before 8: sort first, no formula in operation 12 later"),
        without(other).case("6 before 8: sort first, no formula behind operation 12 later"),
        set(test(new(), first), then + 2, 1).case("6 before 8: sort in the first half"),
        test(set(new(), first + 2, 1), then).case("6 before 8: sort in the second half"),
        set(set(new(), then + 1, 1), first + 1, 3).case("6 before 9: owner in the second half"),
        test(set(new(), then + 1, 1), first).case("8 before 9: owner in the second half"),
        test(set(new(), trade + 1, 1), other).case("8 before 9: owner in the first half"),
        set(set(new(), trade + 1, 1), other + 2, 1).case("6 before 9: owner in the first half"),
        set(set(new(), trade + 1, 1), other + 1, 1).case("6 before 9: another's register twice"),
        set(set(new(), 13, 4), then + 1, 1).case("9 before 23: owner in a second half"),
        test(set(new(), 13, 4), then).case("8 before 23: sort in a second half"),
        set(set(new(), 13, 4), then, 1).case("6 before 23: operation of a second half"),
        set(new(), then + 2, 1).append(THREAD, T, &[0]).case("5 before 6: behind a second half"),
        set(new(), 13, 4).case("23: an operand, and pairs behind it"),
    ]
}

/// Every point of a thread has an instruction of ten bytes, up to the last that may.
fn points() -> Vec<Case> {
    let counts = Counts { threads: 2, words: 1, registers: 2, range: 8 };
    let header = Header::cleared(counts, vec![0], vec![1, 1]);
    let one = |value: u8| Value::Constant(value);
    let store = |releasing| Access::Store { word: 1, value: one(1).into(), releasing };
    let swap = Access::Swap { word: 1, value: one(1).into() };
    let kinds = [
        Instruction::pair(store(false), Note::new(2, one(3))),
        Instruction::pair(store(true), Note::new(2, one(3))),
        Instruction::pair(swap, Note::new(1, one(4))),
        Instruction::trade(Note::new(1, Value::Register(2)), Note::new(2, Value::Register(1))),
    ];
    let mut cases = Vec::new();
    for (operation, instruction) in (9..).zip(kinds) {
        let code: Thread = vec![instruction; usize::from(POINTS) - 1];
        let plan = harness::plan(harness::program(header.clone(), vec![code, Vec::new()]));
        let label = format!("accepted: 15 instructions of operation {operation}");
        cases.push(Case::new(label, plan.bytes()));
        let mut last = plan.clone();
        *last.obligations.last_mut().expect("obligations") = None;
        let label = format!("20: 15 instructions of operation {operation}, the last obligation");
        cases.push(Case::new(label, last.bytes()));
    }
    cases
}
