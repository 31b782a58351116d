//! Traces worked out by hand.
use super::{replay, replayed, Replay, ANSWER, WRITE_BYTES};
use crate::formula::parse::Counts;
use crate::formula::{Test, Value};
use crate::image::{Access, Header, Instruction, Note, Program, Thread};
use std::rc::Rc;

/// The scope page's small image, with a range of 8: one thread, one point, one word.
const SMALL: [u8; 50] = [
    7, 0, 1, 0, 1, 1, 0, 8, 0, 5, 0, 2, 0, 28, 11, 8, 3, 0, 2, 0, 27, 3, 0, 3, 0, 1, 4, 0, 4, 0, 1,
    0, 10, 0, 5, 0, 20, 0, 0, 2, 0, 1, 0, 0, 4, 0, 6, 0, 1, 0,
];

/// Words 1 and 2 that start at 3 and 0, and registers of which the second and third are open; no outline is looked at.
fn program(threads: Vec<Thread>) -> Program {
    let counts = Counts { threads: threads.len() as u8, words: 2, registers: 3, range: 8 };
    let header = Header { counts, start: vec![3, 0], owners: vec![1; 3], marks: vec![1, 0, 0] };
    Program { header, threads, outline: Vec::new() }
}

fn store(word: u8, value: impl Into<Rc<Value>>, releasing: bool) -> Access {
    Access::Store { word, value: value.into(), releasing }
}

fn constant(value: u8) -> Rc<Value> {
    Rc::new(Value::Constant(value))
}

fn load(register: u8, word: u8, acquiring: bool) -> Instruction {
    Access::Load { register, word, acquiring }.into()
}

fn back_to(target: u8) -> Instruction {
    Instruction::Branch { test: Test::truth().into(), target }
}

/// x := 1, then y := 2 releasing.
fn writer() -> Thread {
    vec![store(1, constant(1), false).into(), store(2, constant(2), true).into()]
}

/// An entry: value, marks, positions of words 1 and 2.
type Entry = (u8, [u8; 2], [u8; 2]);

fn entries(replay: &Replay) -> Vec<Entry> {
    let entry = |write: &crate::machine::Write| {
        let view = write.stored.0;
        assert_eq!(view[2..], [0; 6]);
        (write.value, [write.releasing.into(), write.covered.into()], [view[0], view[1]])
    };
    replay.writes.iter().map(entry).collect()
}

const START: [Entry; 2] = [(3, [0, 0], [0, 0]), (0, [0, 0], [0, 0])];

/// The replay of a trace that is taken to its end, with all the room there is.
fn whole(threads: Vec<Thread>, trace: &[u8], given: &[u8]) -> Replay {
    let replay = replayed(Some(&program(threads)), trace, given, 64);
    assert_eq!((replay.code, replay.steps), (0, trace.len() / 2));
    replay
}

fn code_and_steps(threads: Vec<Thread>, trace: &[u8], room: usize) -> (u16, usize) {
    let replay = replayed(Some(&program(threads)), trace, &[], room);
    (replay.code, replay.steps)
}

#[test]
fn a_swap_over_a_releasing_write_joins_its_view() {
    let swap = Access::Swap { word: 2, value: constant(5) };
    let replay = whole(vec![writer(), vec![swap.into()]], &[1, 0, 1, 0, 2, 1], &[]);
    let x = [START[0], (1, [0, 0], [1, 0])];
    let y = [START[1], (2, [1, 1], [1, 1]), (5, [1, 0], [1, 2])];
    assert_eq!(entries(&replay), [&x[..], &y].concat());
    assert_eq!(replay.points, [2, 1]);
}

#[test]
fn a_store_behind_an_earlier_write_moves_positions_in_views_of_other_rows() {
    let other = vec![store(1, constant(7), false).into()];
    let replay = whole(vec![writer(), other], &[1, 0, 1, 0, 2, 0], &[]);
    let x = [START[0], (7, [0, 0], [1, 0]), (1, [0, 0], [2, 0])];
    let y = [START[1], (2, [1, 0], [2, 1])];
    assert_eq!(entries(&replay), [&x[..], &y].concat());
}

#[test]
fn an_acquiring_load_takes_the_stored_view_over() {
    let reader = |acquiring| vec![load(1, 2, acquiring), load(2, 1, false)];
    let trace = [1, 0, 1, 0, 2, 1, 2, 0];
    let run =
        |acquiring| replayed(Some(&program(vec![writer(), reader(acquiring)])), &trace, &[], 64);
    assert_eq!((run(true).code, run(true).steps), (28, 3)); // the old x is out of sight
    assert_eq!(run(true).registers, [2, 0, 0]);
    assert_eq!((run(false).code, run(false).registers), (0, vec![2, 3, 0]));
}

#[test]
fn a_pair_is_one_step_from_the_registers_before_it() {
    let sum = Value::sum(Value::Register(2), Value::Constant(7));
    let pair = Instruction::pair(store(1, Value::Register(2), true), Note::new(2, sum));
    let replay = whole(vec![vec![pair]], &[1, 0], &[0, 5]);
    assert_eq!(entries(&replay), [START[0], (5, [1, 0], [1, 0]), START[1]]);
    assert_eq!((replay.registers, replay.points), (vec![0, 4, 0], vec![1]));
}

#[test]
fn two_registers_trade_values() {
    let [two, three] = [2, 3].map(Value::Register);
    let trade = Instruction::trade(Note::new(2, three), Note::new(3, two));
    let replay = whole(vec![vec![trade.clone()]], &[1, 0], &[0, 5, 6]);
    assert_eq!((entries(&replay), replay.registers), (START.to_vec(), vec![0, 6, 5]));
    assert_eq!(code_and_steps(vec![vec![trade]], &[1, 1], 64), (28, 0));
}

#[test]
fn fetch_add_keeps_the_old_value_and_covers() {
    let add = Access::FetchAdd { register: 1, word: 1, value: constant(6) };
    let replay = whole(vec![vec![add.clone().into(), add.into()]], &[1, 0, 1, 1], &[]);
    let x = [START[0], (1, [1, 1], [1, 0]), (7, [1, 0], [2, 0])];
    assert_eq!(entries(&replay)[1..3], x[1..]);
    assert_eq!(entries(&replay)[0], (3, [0, 1], [0, 0]));
    assert_eq!(replay.registers, [1, 0, 0]);
}

#[test]
fn a_branch_goes_by_its_test() {
    let is_four = Test::equal(Value::Register(2), Value::Constant(4));
    let code = vec![Instruction::Branch { test: is_four.into(), target: 2 }, back_to(0)];
    let point = |given: &[u8]| whole(vec![code.clone()], &[1, 0], given).points;
    assert_eq!((point(&[4, 4]), point(&[4, 3]), point(&[])), (vec![2], vec![1], vec![1]));
}

#[test]
fn given_registers_are_taken_modulo_the_range_where_they_are_open() {
    let registers = |given: &[u8]| whole(vec![Vec::new()], &[], given).registers;
    assert_eq!(registers(&[1, 255, 8]), [0, 7, 0]);
    assert_eq!(registers(&[1, 9]), [0, 1, 0]);
    assert_eq!(registers(&[]), [0, 0, 0]);
    assert_eq!(registers(&[9; 20]), [0, 1, 1]);
}

#[test]
fn a_refused_step_ends_the_run() {
    let code = || vec![writer(), vec![load(1, 1, false)]];
    let refused = |trace: &[u8]| code_and_steps(code(), trace, 64);
    assert_eq!(refused(&[]), (0, 0));
    assert_eq!(refused(&[0, 0]), (27, 0)); // there is no thread 0
    assert_eq!(refused(&[3, 0]), (27, 0));
    assert_eq!(refused(&[255, 255]), (27, 0));
    assert_eq!(refused(&[2, 0, 2, 9, 1, 0]), (27, 1)); // at its last point, before 28
    assert_eq!(refused(&[1]), (27, 0)); // half a step
    assert_eq!(refused(&[1, 0, 1]), (27, 1));
    assert_eq!(refused(&[1, 7, 1]), (28, 0)); // it is not come to
    assert_eq!(refused(&[1, 1]), (28, 0)); // no such write
    assert_eq!(refused(&[1, 0, 2, 1, 2, 0]), (27, 2));
    assert_eq!(refused(&[1, 0, 2, 2]), (28, 1));
}

#[test]
fn a_covered_write_can_be_read_and_not_be_stored_behind() {
    let swap: Instruction = Access::Swap { word: 1, value: constant(5) }.into();
    let code = |second: Instruction| vec![vec![swap.clone()], vec![second]];
    assert_eq!(code_and_steps(code(load(1, 1, false)), &[1, 0, 2, 0], 64), (0, 2));
    for second in [swap.clone(), store(1, constant(1), false).into()] {
        assert_eq!(code_and_steps(code(second), &[1, 0, 2, 0], 64), (28, 1));
    }
}

#[test]
fn room_is_asked_for_last_and_by_writes_alone() {
    let code = || vec![writer(), vec![load(1, 1, false), back_to(0)]];
    assert_eq!(code_and_steps(code(), &[1, 0], 2), (29, 0));
    assert_eq!(code_and_steps(code(), &[1, 1], 2), (28, 0));
    assert_eq!(code_and_steps(code(), &[1], 2), (27, 0));
    assert_eq!(code_and_steps(code(), &[2, 0, 2, 0, 2, 0, 1, 0], 2), (29, 3));
    assert_eq!(code_and_steps(code(), &[1, 0, 2, 1, 1, 0, 2, 0], 3), (29, 2));
    let pair = Instruction::pair(store(1, constant(1), false), Note::new(1, constant(1)));
    assert_eq!(code_and_steps(vec![vec![pair]], &[1, 0], 2), (29, 0));
}

#[test]
fn start_writes_need_room_too() {
    for room in 0..2 {
        let replay = replayed(Some(&program(vec![writer()])), &[1], &[1, 9], room);
        let expected =
            Replay { code: 29, points: vec![0], registers: vec![0, 1, 0], ..Replay::default() };
        assert_eq!(replay, expected);
    }
    assert_eq!(code_and_steps(vec![writer()], &[], 2), (0, 0));
}

/// x := 1 again and again, behind the last write, with a table of so many bytes: code, steps, and the table after.
fn stored_often(times: u8, bytes: usize) -> (u16, usize, Vec<u8>) {
    let code = vec![store(1, constant(1), false).into(), back_to(0)];
    let trace: Vec<u8> = (0..times).flat_map(|at| [1, at, 1, 0]).collect();
    let (mut table, mut answer) = (vec![0xA5; bytes], [9; ANSWER]);
    let replay = replayed(Some(&program(vec![code])), &trace, &[], super::room(bytes));
    let code = replay.put(&mut table, &mut answer);
    (code, answer[0], table)
}

#[test]
fn entries_past_the_sixty_fourth_are_never_used() {
    for entries in [2, 3, 62, 63, 64, 65, 80] {
        for ragged in [0, 10] {
            let most = entries.min(64) - 2;
            let (code, steps, table) = stored_often(70, entries * WRITE_BYTES + ragged);
            assert_eq!((code, steps), (29, 2 * most));
            let used = (most + 2) * WRITE_BYTES;
            assert!(table[used..].iter().all(|&byte| byte == 0xA5));
            // The row of x, then y's start write.
            for (at, entry) in
                table[WRITE_BYTES..used - WRITE_BYTES].chunks(WRITE_BYTES).enumerate()
            {
                assert_eq!(entry, [1, 0, 0, at as u8 + 1, 0, 0, 0, 0, 0, 0, 0]);
            }
            assert_eq!(table[used - WRITE_BYTES..used], [0; WRITE_BYTES]);
        }
    }
    let (code, steps, table) = stored_often(5, 20 * WRITE_BYTES);
    assert_eq!((code, steps), (0, 10));
    assert!(table[7 * WRITE_BYTES..].iter().all(|&byte| byte == 0xA5));
    assert_eq!(stored_often(1, 2 * WRITE_BYTES - 1), (29, 0, vec![0xA5; 21]));
    assert_eq!(stored_often(0, 0).0, 29);
}

#[test]
fn steps_may_exceed_sixteen_bits() {
    let poll = vec![load(1, 1, false), back_to(0)];
    let replay = whole(vec![poll], &[1, 0].repeat(70_001), &[]);
    assert_eq!((replay.numbers()[0], replay.points), (70_001, vec![1]));
}

#[test]
fn answers() {
    let call = |image: &[u8], trace: &[u8], table: &mut [u8], answer: &mut [usize]| {
        replay(image, trace, &[], table, answer)
    };
    let (mut table, mut answer) = ([9; 30], [9; ANSWER + 2]);
    let mut expected = [0; ANSWER + 2];
    expected[ANSWER..].fill(9);
    assert_eq!(call(&SMALL[..49], &[1, 0], &mut table, &mut answer), 24);
    assert_eq!((table, answer), ([9; 30], expected));
    assert_eq!(call(&SMALL, &[], &mut table[..10], &mut answer), 29);
    assert_eq!((table, answer), ([9; 30], expected));
    assert_eq!(call(&SMALL, &[], &mut table, &mut answer), 0);
    let mut written = [9; 30];
    written[..WRITE_BYTES].fill(0);
    assert_eq!((table, answer), (written, expected));
    assert_eq!(call(&SMALL, &[1, 0], &mut table, &mut answer), 27);

    let (mut table, mut short) = ([9; 30], [9; ANSWER - 1]);
    assert_eq!(call(&SMALL, &[], &mut table, &mut short), 1);
    assert_eq!(call(&[], &[], &mut table, &mut short), 1); // before 24
    assert_eq!((table, short), ([9; 30], [9; ANSWER - 1]));
}

#[test]
fn points_and_registers_have_places_of_their_own() {
    let assign = |register, value| Instruction::assign(register, constant(value));
    let threads = vec![vec![assign(1, 1), assign(1, 7)], Vec::new(), vec![assign(2, 6)]];
    let numbers = whole(threads, &[1, 0, 3, 0, 1, 0], &[0, 0, 4]).numbers();
    let mut expected = [0; ANSWER];
    expected[..8].copy_from_slice(&[3, 2, 0, 1, 0, 7, 6, 4]);
    assert_eq!(numbers, expected);
}
