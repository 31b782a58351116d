//! Operations: every byte is tried as one, and every number in each of its fields.

use crate::images::{code, is_well_formed, program, single, small, with_code, FALSE, TRUTH, ZERO};
use crate::page::{number, table};
use reference::image::written::{instructions, Half, Instruction, Written};
use reference::machine::{take, State, Step, View, Write};

/// What a row says. `picks` is what a step's position may be.
#[derive(Debug, PartialEq)]
struct Row {
    operation: u8,
    a: String,
    b: String,
    formula: String,
    bytes: usize,
    picks: String,
}

/// How many bytes the instruction has, whatever stands behind its first one.
fn length(operation: u8) -> usize {
    let body = |bytes: usize| [vec![2, operation], vec![0; bytes - 1]].concat();
    let lengths: Vec<usize> =
        (1..=20).filter(|&bytes| instructions(&body(bytes)).is_some()).collect();
    assert_eq!(lengths.len(), 1, "operation {operation}");
    lengths[0]
}

/// An image whose thread 1 has this instruction first and three points: two words, three registers, four formulas.
fn image(instruction: Instruction) -> Written {
    with_code(1, vec![instruction, single(0, 1, 0, ZERO)])
}

/// The instruction with these fields; a second half sets register 3.
fn instruction(operation: u8, [a, b, formula]: [u16; 3]) -> Instruction {
    let second = Half { operation: 0, a: 3, b: 0, formula: ZERO };
    let second = (length(operation) == 10).then_some(second);
    Instruction { second, ..single(operation, a as u8, b as u8, formula) }
}

/// The code of an image with the instruction.
fn answer(operation: u8, fields: [u16; 3]) -> u16 {
    code(&image(instruction(operation, fields)))
}

/// The numbers that a field may have, the other fields as they are.
fn permitted(operation: u8, fields: [u16; 3], place: usize) -> Vec<u16> {
    let tried = (0..=u16::from(u8::MAX)).filter(|&value| {
        let mut fields = fields;
        fields[place] = value;
        answer(operation, fields) != 6
    });
    tried.collect()
}

/// What a field of these numbers names.
fn field_name(operation: u8, numbers: &[u16]) -> String {
    let name = match numbers {
        [0] => "0",
        [1, 2] => "word",
        // The second half of operation 12 has register 3.
        [1, 2, 3] => "register",
        [0, 1, 2] => "point",
        _ => panic!("operation {operation} has {numbers:?}"),
    };
    name.to_string()
}

/// The sort of the formula: a value or a test, or that there is none.
fn formula_name(operation: u8, [a, b, _]: [u16; 3]) -> String {
    let numbers = permitted(operation, [a, b, ZERO], 2);
    if numbers == [0] {
        return "0".to_string();
    }
    assert_eq!(numbers, [TRUTH, 2, FALSE, ZERO], "operation {operation}");
    let fits = |formula: u16| is_well_formed(answer(operation, [a, b, formula]));
    match [TRUTH, FALSE, ZERO].map(fits) {
        [false, true, false] => "test".to_string(),
        [false, false, true] => "value".to_string(),
        sorts => panic!("operation {operation}: {sorts:?}"),
    }
}

/// Fields with which the operation is well formed; none if it is no operation.
fn good_fields(operation: u8) -> Option<[u16; 3]> {
    let bytes = || [0, 1];
    let fields = bytes().into_iter().flat_map(|a| {
        bytes().into_iter().flat_map(move |b| [0, FALSE, ZERO].map(|formula| [a, b, formula]))
    });
    fields.into_iter().find(|&fields| is_well_formed(answer(operation, fields)))
}

/// Which writes a step picks: the row has an uncovered write, the thread's own, which is covered, and an uncovered one.
fn picks(operation: u8, fields: [u16; 3]) -> String {
    let program = program(&image(instruction(operation, fields)));
    let mut state = State::start(&program.header);
    let write =
        |covered: bool| Write { value: 1, releasing: false, covered, stored: View::default() };
    state.rows[0] = [false, true, false].map(write).to_vec();
    state.views[0] = View::default().moved(1, 1);
    let taken =
        |&position: &usize| take(&program.threads, &state, Step { thread: 1, position }).is_some();
    let name = match (0..10).filter(taken).collect::<Vec<usize>>()[..] {
        [0] => "0",
        [1, 2] => "any",
        [2] => "uncovered",
        ref positions => panic!("operation {operation} picks {positions:?}"),
    };
    name.to_string()
}

fn row_of(operation: u8) -> Option<Row> {
    let fields = good_fields(operation)?;
    // Operation 12 excludes the register that its second half sets.
    let with_last = |mut numbers: Vec<u16>| {
        if operation == 12 && numbers == [1, 2] {
            numbers.push(3);
        }
        numbers
    };
    let a = with_last(permitted(operation, fields, 0));
    Some(Row {
        operation,
        a: field_name(operation, &a),
        b: field_name(operation, &permitted(operation, fields, 1)),
        formula: formula_name(operation, fields),
        bytes: length(operation),
        picks: picks(operation, fields),
    })
}

#[test]
fn operations_are_those_of_the_reader_and_the_machine() {
    let known: Vec<Row> = (0..=u8::MAX).filter_map(row_of).collect();
    let titles = ["Operation", "Text", "a", "b", "Formula", "Bytes", "Picks", "Does"];
    let told =
        table(titles).into_iter().map(|[operation, _, a, b, formula, bytes, picks, _]| Row {
            operation: number(&operation) as u8,
            a,
            b,
            formula,
            bytes: number(&bytes) as usize,
            picks,
        });
    assert_eq!(told.collect::<Vec<Row>>(), known);
}

#[test]
fn an_unknown_operation_has_five_bytes_and_is_refused() {
    for operation in 13..=u8::MAX {
        assert_eq!(length(operation), 5);
        assert_eq!(good_fields(operation), None);
    }
}

#[test]
fn a_second_half_is_an_assignment_to_another_register() {
    let pair = |second: Half| {
        let image = image(Instruction { second: Some(second), ..single(12, 1, 0, ZERO) });
        code(&image)
    };
    let assignment = Half { operation: 0, a: 2, b: 0, formula: ZERO };
    assert_eq!(pair(assignment), 20);
    assert_eq!(pair(Half { a: 1, ..assignment }), 6);
    assert_eq!(pair(Half { operation: 3, ..assignment }), 6);
    assert_eq!(pair(Half { b: 1, ..assignment }), 6);
    let two_threads = Written { threads: vec![Vec::new(); 2], ..small(2) };
    assert_eq!(code(&two_threads), 0);
}
