//! Outlines that hold and outlines that break.
use reference::explore::{describe, explore, Bounds, Outcome};
use reference::formula::Value;
use reference::image::{Access, Program};
use sets::examples::message_passing;
use std::rc::Rc;

const BOUNDS: Bounds = Bounds { steps: 12, writes: 4, starts: 4096, states: 2_000_000 };

fn outcome(program: &Program) -> Outcome {
    explore(program, &[], BOUNDS).outcome
}

#[test]
fn message_passing_holds_in_all_states() {
    assert_eq!(outcome(&message_passing().program), Outcome::Holds { all: true });
}

#[test]
fn message_passing_needs_the_release_and_the_acquire() {
    let mut relaxed = message_passing().program;
    relaxed.threads[0][1] =
        Access::Store { word: 2, value: Rc::new(Value::Constant(1)), releasing: false }.into();
    let mut plain = message_passing().program;
    plain.threads[1][0] = Access::Load { register: 1, word: 2, acquiring: false }.into();
    for program in [relaxed, plain] {
        let Outcome::Breaks(broken) = outcome(&program) else {
            panic!("the assertion must break");
        };
        let text = describe(&program, &broken);
        assert!(text.contains("false: thread 2"), "{text}");
    }
}

#[test]
fn a_row_bound_is_reported() {
    let found = explore(
        &message_passing().program,
        &[],
        Bounds { steps: 12, writes: 1, starts: 4096, states: 2_000_000 },
    );
    assert_eq!(found.outcome, Outcome::Holds { all: false });
    let found = explore(
        &message_passing().program,
        &[],
        Bounds { steps: 1, writes: 4, starts: 4096, states: 2_000_000 },
    );
    assert_eq!(found.outcome, Outcome::Holds { all: false });
}
