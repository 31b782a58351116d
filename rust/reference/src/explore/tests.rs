//! Truth worked out by hand.
use super::truth::{is_true, sees, violation};
use super::{describe, explore, find, reachable, seek, Bounds, Cut, Outcome};
use crate::checker::obligations::Duty;
use crate::formula::parse::Counts;
use crate::formula::{Assertion, Interval, Test, Value};
use crate::image::{Access, Header, Instruction, Program, Thread};
use crate::machine::{State, View, Write};
use std::rc::Rc;

/// Two words with two writes each; the second write of word 2 is releasing and
/// its stored view names the second write of word 1.
fn two_by_two() -> State {
    let write = |value, releasing, stored: [u8; 2]| Write {
        value,
        releasing,
        covered: false,
        stored: View::default().moved(1, stored[0]).moved(2, stored[1]),
    };
    State {
        range: 8,
        rows: vec![
            vec![write(0, false, [0, 0]), write(5, false, [1, 0])],
            vec![write(0, false, [0, 0]), write(0, true, [1, 1])],
        ],
        views: vec![View::default()],
        registers: Vec::new(),
        points: vec![0],
    }
}

fn word_is(word: u8, value: u8) -> Interval {
    Interval::all(Test::equal(Value::Word(word), Value::Constant(value)))
}

#[test]
fn truth_is_about_every_prospect() {
    let state = two_by_two();
    let unsync = Interval::all(Test::Unsync(2));
    let first_then = |rest: Interval| Interval::chop(Interval::One(2), rest);
    assert!(sees(&state, 1, &Interval::chop(word_is(1, 0), word_is(1, 5))));
    assert!(!sees(&state, 1, &Interval::chop(word_is(1, 5), word_is(1, 0))));
    assert!(sees(&state, 1, &first_then(Interval::chop(unsync.clone(), word_is(1, 5)))));
    assert!(!sees(&state, 1, &first_then(word_is(1, 5))));
    assert!(!sees(&state, 1, &first_then(unsync)));
    // Equal values are not the same write.
    assert!(sees(&state, 1, &word_is(2, 0)));
    assert!(!sees(&state, 1, &Interval::One(2)));
    assert!(sees(&state, 1, &first_then(Interval::One(2))));
}

/// One word, two registers of range 8, of which the second is open.
fn half_open() -> Header {
    let counts = Counts { threads: 1, words: 1, registers: 2, range: 8 };
    Header { counts, start: vec![3], owners: vec![1, 1], marks: vec![1, 0] }
}

#[test]
fn start_is_true_of_start_states_only() {
    let header = half_open();
    let start = State::start(&header);
    assert!(is_true(&Assertion::Start, &start, &header));
    let open = State { registers: vec![0, 5], ..start.clone() };
    assert!(is_true(&Assertion::Start, &open, &header));
    let other = State { registers: vec![5, 0], ..start.clone() };
    assert!(!is_true(&Assertion::Start, &other, &header));
    assert!(!is_true(&Assertion::Start, &two_by_two(), &header));
}

/// A thread that stores a register, with assertions about it at both points.
fn storing(register: u8, below: u8) -> Program {
    let store =
        Access::Store { word: 1, value: Value::Register(register).into(), releasing: false }.into();
    let test = Test::less(Value::Register(register), Value::Constant(below));
    let known = Rc::new(Assertion::holds(test));
    let outline = vec![vec![Rc::new(Assertion::truth()), known]];
    Program { header: half_open(), threads: vec![vec![store]], outline }
}

#[test]
fn runs_begin_at_every_start_state() {
    let bounds = Bounds { steps: 4, writes: 4, starts: 100, states: 1000 };
    // The cleared register is 0; the open one may be 7 and nothing more.
    assert_eq!(explore(&storing(1, 1), &[], bounds).outcome, Outcome::Holds { all: true });
    let found = explore(&storing(2, 7), &[], bounds);
    let Outcome::Breaks(broken) = found.outcome else { panic!("register 2 may be 7") };
    assert_eq!(broken.start.registers, [0, 7]);
    assert!(describe(&storing(2, 7), &broken).contains("starts with registers [0, 7]"));
    let few = Bounds { starts: 7, ..bounds };
    assert!(matches!(explore(&storing(1, 1), &[], few).outcome, Outcome::Holds { all: false }));
    assert_eq!(reachable(&storing(2, 7), bounds).len(), 16);
}

#[test]
fn a_prospect_that_fails_is_named() {
    let state = two_by_two();
    let both = Interval::chop(word_is(1, 5), word_is(1, 0));
    let chain = violation(&state, 1, &both).expect("false");
    assert_eq!(chain, [View::default(), View::default().moved(1, 1)]);
    assert_eq!(violation(&state, 1, &word_is(2, 0)), None);
}

#[test]
fn runs_that_break_obligations_are_found() {
    let bounds = Bounds { steps: 4, writes: 4, starts: 64, states: 1000 };
    let duties = [Duty::Start { thread: 1 }, Duty::Next { thread: 1, point: 0 }];
    let sought = seek(&storing(2, 3), &duties, bounds);
    assert_eq!(sought.runs[0], None);
    let run = sought.runs[1].as_ref().expect("open registers may be 3");
    assert_eq!((run.start.registers.clone(), run.steps.len()), (vec![0, 3], 1));
    let sought = seek(&storing(1, 3), &duties, bounds);
    assert_eq!((sought.runs, sought.all), (vec![None, None], true));
    let few = seek(&storing(1, 3), &duties, Bounds { states: 1, ..bounds });
    assert!(!few.all && few.cut.states);
}

#[test]
fn a_run_to_a_wanted_state_is_found() {
    let bounds = Bounds { steps: 4, writes: 4, starts: 64, states: 1000 };
    let wrote = |state: &State| state.row(1).len() == 2 && state.registers[1] == 6;
    let found = find(&storing(2, 3), bounds, &wrote);
    assert_eq!(found.runs[0].as_ref().map(|run| run.steps.len()), Some(1));
    let never = find(&storing(2, 3), bounds, &|state: &State| state.row(1).len() == 3);
    assert!(never.runs[0].is_none() && never.all);
    let cut = find(&storing(2, 3), Bounds { steps: 0, ..bounds }, &wrote);
    assert!(cut.runs[0].is_none() && cut.cut.steps && !cut.cut.writes);
}

/// A thread that polls a word that another thread has written once.
fn polling() -> Program {
    let counts = Counts { threads: 2, words: 1, registers: 1, range: 8 };
    let header = Header { counts, start: vec![0], owners: vec![2], marks: vec![1] };
    let store = Access::Store { word: 1, value: Rc::new(Value::Constant(1)), releasing: false };
    let load = Access::Load { register: 1, word: 1, acquiring: false };
    let back = Instruction::Branch { test: Test::truth().into(), target: 0 };
    let threads = vec![vec![store.into()], vec![load.into(), back]];
    let truth = Rc::new(Assertion::truth());
    let outline = threads.iter().map(|t: &Thread| vec![truth.clone(); t.len() + 1]);
    Program { header, outline: outline.collect(), threads }
}

#[test]
fn a_state_that_is_known_is_not_cut() {
    // The loop comes back to what was seen: six states, each within three steps, and no bound leaves one out.
    let bounds = Bounds { steps: 3, writes: 2, starts: 1, states: 6 };
    let never = |bounds| find(&polling(), bounds, &|state: &State| state.row(1).len() == 3);
    let all = never(bounds);
    assert_eq!((all.states, all.all, all.cut), (6, true, Cut::default()));
    let short = never(Bounds { steps: 2, ..bounds });
    assert_eq!(
        (short.all, short.cut, short.steps),
        (false, Cut { steps: true, ..Cut::default() }, 2)
    );
    let few = never(Bounds { states: 5, ..bounds });
    assert_eq!((few.states, few.all, few.cut), (5, false, Cut { states: true, ..Cut::default() }));
    assert_eq!(few.steps, 2, "the state left out is three steps away");
    let flat = never(Bounds { writes: 1, ..bounds });
    assert_eq!((flat.all, flat.cut), (false, Cut { writes: true, ..Cut::default() }));
    let found = explore(&polling(), &[], Bounds { states: 5, ..bounds });
    assert_eq!((found.outcome, found.cut.states), (Outcome::Holds { all: false }, true));
}

#[test]
fn start_states_beyond_the_bound_of_states_are_cut() {
    let bounds = Bounds { steps: 4, writes: 4, starts: 100, states: 3 };
    let found = explore(&storing(1, 1), &[], bounds);
    assert_eq!((found.states, found.cut.states, found.cut.starts), (3, true, false));
    assert_eq!(found.outcome, Outcome::Holds { all: false });
}
