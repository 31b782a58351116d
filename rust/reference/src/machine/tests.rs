//! Steps worked out by hand.
use super::{take, State, Step, View};
use crate::formula::parse::Counts;
use crate::formula::{Test, Value};
use crate::image::{Access, Header, Instruction, Note, Thread};
use std::rc::Rc;

fn start(threads: u8) -> State {
    let counts = Counts { threads, words: 2, registers: 1, range: 8 };
    State::start(&Header::cleared(counts, vec![3, 0], vec![1]))
}

fn store(word: u8, value: u8, releasing: bool) -> Instruction {
    Access::Store { word, value: Rc::new(Value::Constant(value)), releasing }.into()
}

fn swap(word: u8, value: u8) -> Instruction {
    Access::Swap { word, value: Rc::new(Value::Constant(value)) }.into()
}

fn load(word: u8, acquiring: bool) -> Instruction {
    Access::Load { register: 1, word, acquiring }.into()
}

/// The state after steps of which none is refused.
fn run(threads: &[Thread], steps: &[(u8, usize)]) -> State {
    steps.iter().fold(start(threads.len() as u8), |state, &(thread, position)| {
        take(threads, &state, Step { thread, position }).expect("an allowed step")
    })
}

fn refused(threads: &[Thread], steps: &[(u8, usize)], thread: u8, position: usize) -> bool {
    take(threads, &run(threads, steps), Step { thread, position }).is_none()
}

fn values(state: &State, word: u8) -> Vec<u8> {
    state.row(word).iter().map(|write| write.value).collect()
}

fn view(positions: [u8; 2]) -> View {
    View::default().moved(1, positions[0]).moved(2, positions[1])
}

#[test]
fn a_store_goes_directly_behind_its_pick() {
    let threads = [vec![store(1, 1, false)], vec![store(1, 2, false)]];
    let state = run(&threads, &[(1, 0), (2, 0)]);
    assert_eq!(values(&state, 1), [3, 2, 1]);
    assert_eq!(state.views, [view([2, 0]), view([1, 0])]);
    assert_eq!(state.row(1)[2].stored, view([2, 0]));
    assert_eq!(state.points, [1, 1]);
}

#[test]
fn a_load_reads_any_write_from_its_own_on() {
    let threads = [vec![store(1, 1, false), load(1, false)], vec![load(1, false), load(1, false)]];
    assert_eq!(run(&threads, &[(1, 0), (2, 0)]).registers, [3]);
    assert_eq!(run(&threads, &[(1, 0), (2, 1)]).registers, [1]);
    assert!(refused(&threads, &[(1, 0)], 1, 0)); // before its own write
    assert!(refused(&threads, &[(1, 0), (2, 1)], 2, 0));
    assert!(refused(&threads, &[(1, 0)], 2, 2)); // no such write
}

#[test]
fn only_an_acquiring_load_of_a_releasing_write_joins() {
    let joined = |releasing, acquiring| {
        let writer = vec![store(1, 1, false), store(2, 1, releasing)];
        let threads = [writer, vec![load(2, acquiring)]];
        run(&threads, &[(1, 0), (1, 0), (2, 1)]).views[1]
    };
    assert_eq!(joined(true, true), view([1, 1]));
    assert_eq!(joined(true, false), view([0, 1]));
    assert_eq!(joined(false, true), view([0, 1]));
}

#[test]
fn a_swap_covers_its_pick_and_joins() {
    let writer = vec![store(2, 4, false), store(1, 1, true)];
    let threads = [writer, vec![swap(1, 2)], vec![load(1, false), store(1, 5, false)]];
    let state = run(&threads, &[(1, 0), (1, 0), (2, 1)]);
    assert_eq!(values(&state, 1), [3, 1, 2]);
    assert_eq!(state.row(1).iter().map(|w| w.covered).collect::<Vec<_>>(), [false, true, false]);
    assert!(state.row(1)[2].releasing);
    assert_eq!(state.views[1], view([2, 1]));
    assert_eq!(state.row(1)[2].stored, view([2, 1]));
    // A covered write is read as any other, but nothing is stored behind it.
    let before = [(1, 0), (1, 0), (2, 1), (3, 1)];
    assert_eq!(run(&threads, &before).registers, [1]);
    assert!(refused(&threads, &before, 3, 1));
    assert!(!refused(&threads, &before, 3, 2));
    assert!(refused(&threads, &before, 3, 0));
}

fn exchange(word: u8, value: u8) -> Instruction {
    Access::Exchange { register: 1, word, value: Rc::new(Value::Constant(value)) }.into()
}

fn fetch_add(word: u8, value: u8) -> Instruction {
    Access::FetchAdd { register: 1, word, value: Rc::new(Value::Constant(value)) }.into()
}

#[test]
fn exchange_and_fetch_add_are_swaps_that_keep_the_old_value() {
    let writer = vec![store(2, 4, false), store(1, 6, true)];
    let steps = [(1, 0), (1, 0), (2, 1)];
    let swapped = run(&[writer.clone(), vec![swap(1, 2)]], &steps);
    for (action, new) in [(exchange(1, 2), 2), (fetch_add(1, 3), 1)] {
        let threads = [writer.clone(), vec![action.clone(), action]];
        let state = run(&threads, &steps);
        assert_eq!(state.registers, [6]); // the old value, not the new one
        assert_eq!(values(&state, 1), [3, 6, new]);
        let mut expected = swapped.clone();
        expected.rows[0][2].value = new;
        expected.registers = vec![6];
        assert_eq!(state, expected);
        assert!(refused(&threads, &steps, 2, 1)); // covered
        assert!(refused(&threads, &steps, 2, 3)); // no such write
        assert!(!refused(&threads, &steps, 2, 2));
    }
}

#[test]
fn an_operand_is_worked_out_before_the_step() {
    let sum = Value::sum(Value::Register(2), Value::Constant(1));
    let threads = [vec![
        Instruction::assign(2, Rc::new(Value::Constant(2))),
        Access::Exchange { register: 1, word: 1, value: Rc::new(sum.clone()) }.into(),
        Access::FetchAdd { register: 2, word: 1, value: Rc::new(Value::Register(1)) }.into(),
    ]];
    let counts = Counts { threads: 1, words: 2, registers: 2, range: 8 };
    let start = State::start(&Header::cleared(counts, vec![3, 0], vec![1, 1]));
    let step = |state: State, position| {
        take(&threads, &state, Step { thread: 1, position }).expect("an allowed step")
    };
    let state = step(step(step(start, 0), 0), 1);
    assert_eq!(values(&state, 1), [3, 3, 6]);
    assert_eq!(state.registers, [3, 3]);
}

#[test]
fn a_branch_goes_by_its_test() {
    let test = |value| Rc::new(Test::equal(Value::Register(1), Value::Constant(value)));
    let one = |value| [vec![Instruction::Branch { test: test(value), target: 0 }]];
    assert_eq!(run(&one(0), &[(1, 0)]).points, [0]);
    assert_eq!(run(&one(1), &[(1, 0)]).points, [1]);
    assert!(refused(&one(0), &[], 1, 1));
    assert!(refused(&one(1), &[(1, 0)], 1, 0)); // at its last point
    assert!(refused(&one(0), &[], 2, 0)); // absent
    assert!(refused(&one(0), &[], 0, 0));
}

/// A header of one word and registers with these marks.
fn with_marks(range: u8, marks: &[u8]) -> Header {
    let registers = marks.len() as u8;
    let counts = Counts { threads: 1, words: 1, registers, range };
    let owners = vec![1; marks.len()];
    Header { counts, start: vec![1], owners, marks: marks.to_vec() }
}

#[test]
fn open_registers_start_with_any_value() {
    let header = with_marks(3, &[1, 0, 1, 0]);
    let starts: Vec<State> = State::starts(&header, 100).collect();
    assert_eq!(starts.len(), 9);
    assert!(!State::has_more_starts(&header, 9) && State::has_more_starts(&header, 8));
    for (first, second) in (0..3).flat_map(|a| (0..3).map(move |b| (a, b))) {
        let found = starts.iter().filter(|state| state.registers == [0, first, 0, second]);
        assert_eq!(found.count(), 1);
    }
    assert_eq!(starts[0], State::start(&header));
    assert!(starts.iter().all(|state| state.is_start(&header)));
    assert!(starts.iter().all(|state| state.rows == starts[0].rows && state.points == [0]));
}

#[test]
fn a_bound_on_starts_leaves_start_states() {
    let header = with_marks(16, &[0; 16]);
    let starts: Vec<State> = State::starts(&header, 50).collect();
    assert_eq!(starts.len(), 50);
    assert!(starts.iter().all(|state| state.is_start(&header)));
    assert!((0..16).all(|register| starts.iter().any(|state| state.registers[register] > 7)));
}

#[test]
fn start_states_are_told_from_others() {
    let header = with_marks(4, &[1, 0]);
    let with = |registers: [u8; 2]| State { registers: registers.into(), ..State::start(&header) };
    assert!(with([0, 0]).is_start(&header));
    assert!(with([0, 3]).is_start(&header));
    assert!(!with([1, 3]).is_start(&header)); // a register that is cleared
    assert!(!with([0, 4]).is_start(&header)); // no value of the range
    assert!(!State { points: vec![1], ..with([0, 0]) }.is_start(&header));
    let threads = [vec![store(1, 1, false)]];
    let step = take(&threads, &with([0, 0]), Step { thread: 1, position: 0 });
    assert!(!step.expect("an allowed step").is_start(&header));
}

#[test]
fn sums_are_modulo_the_range() {
    for range in 2..=16 {
        let counts = Counts { threads: 1, words: 1, registers: 2, range };
        let start = State::start(&Header::cleared(counts, vec![range - 1], vec![1, 1]));
        let two = Value::sum(Value::Constant(1), Value::Constant(1));
        let threads = [vec![
            Access::FetchAdd { register: 1, word: 1, value: Rc::new(Value::Constant(1)) }.into(),
            Instruction::assign(2, Rc::new(two)),
        ]];
        let step = |state: &State| take(&threads, state, Step { thread: 1, position: 0 });
        let state = step(&step(&start).expect("an allowed step")).expect("an allowed step");
        assert_eq!(values(&state, 1), [range - 1, 0]);
        assert_eq!(state.registers, [range - 1, if range == 2 { 0 } else { 2 }]);
    }
}

#[test]
fn sums_are_modulo_eight() {
    let sum = Value::sum(Value::Register(1), Value::sum(Value::Constant(7), Value::Constant(3)));
    let assign = Instruction::assign(1, Rc::new(sum));
    let threads = [vec![assign.clone(), assign]];
    assert_eq!(run(&threads, &[(1, 0), (1, 0)]).registers, [4]);
    assert!(refused(&threads, &[], 1, 1));
}

/// The state after one step of thread 1 from registers 2, 5 and 0.
fn after_step(action: Instruction, position: usize) -> Option<State> {
    let counts = Counts { threads: 1, words: 2, registers: 3, range: 8 };
    let start = State::start(&Header::cleared(counts, vec![3, 0], vec![1, 1, 1]));
    let state = State { registers: vec![2, 5, 0], ..start };
    take(&[vec![action]], &state, Step { thread: 1, position })
}

#[test]
fn a_pair_is_its_access_and_a_note_in_one_step() {
    let register = |number| Rc::new(Value::Register(number));
    let accesses = [
        Access::Store { word: 1, value: register(1), releasing: false },
        Access::Store { word: 1, value: register(1), releasing: true },
        Access::Swap { word: 1, value: register(1) },
    ];
    for access in accesses {
        // Both formulas name register 1, and both get what it held before.
        let sum = Value::sum(Value::Register(1), Value::Constant(7));
        let pair = Instruction::pair(access.clone(), Note::new(1, sum));
        let alone = after_step(access.into(), 0).expect("an allowed step");
        assert_eq!(values(&alone, 1), [3, 2]);
        let expected = State { registers: vec![1, 5, 0], ..alone };
        assert_eq!(after_step(pair.clone(), 0), Some(expected));
        assert_eq!(after_step(pair, 1), None); // picks as its first half
    }
}

#[test]
fn two_registers_trade_values() {
    let [one, two] = [1, 2].map(Value::Register);
    let trade = Instruction::trade(Note::new(1, two), Note::new(2, one));
    let state = after_step(trade.clone(), 0).expect("an allowed step");
    assert_eq!((state.registers, state.points), (vec![5, 2, 0], vec![1]));
    assert_eq!(after_step(trade, 1), None);
}
