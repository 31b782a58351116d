//! The rules against the machine: what a justified line says is true in every
//! state tried. This tells when checker and machine were not read alike.

use reference::checker::decode;
use reference::checker::rules::{justified_lines, rules, OF_PAIR};
use reference::explore::truth::{is_true, sees};
use reference::explore::{reachable, Bounds};
use reference::formula::Assertion;
use reference::image::{Instruction, Line, Program, Statement};
use reference::machine::{take, State, Step};
use sets::generate::image;
use std::collections::BTreeMap;

const BOUNDS: Bounds = Bounds { steps: 4, writes: 3, starts: 6, states: usize::MAX };

/// The states after an instruction of a thread, from a state whatever its point.
fn after(action: &Instruction, state: &State, thread: u8) -> Vec<State> {
    let mut before = state.clone();
    before.points[usize::from(thread) - 1] = 0;
    let threads = vec![vec![action.clone()]; before.points.len()];
    let positions = 0..BOUNDS.writes;
    positions.filter_map(|position| take(&threads, &before, Step { thread, position })).collect()
}

/// The instruction that a triple is about: a whole pair by rule 50, else its first half.
fn subject(program: &Program, line: &Line) -> Option<Instruction> {
    let (thread, point) = line.statement.place();
    let action = program.instruction(thread, point)?;
    Some(if line.rule == OF_PAIR { action.clone() } else { action.first_half() })
}

/// How often the left side was true; fails where the right side is not.
fn live_checks(program: &Program, states: &[State], line: &Line) -> usize {
    let true_in = |assertion: &Assertion, state: &State| is_true(assertion, state, &program.header);
    let action = subject(program, line);
    let mut live = 0;
    for state in states {
        match &line.statement {
            Statement::Triple { thread, left, right, .. } if true_in(left, state) => {
                let action = action.as_ref().expect("a triple names an instruction");
                for next in after(action, state, *thread) {
                    live += 1;
                    assert!(true_in(right, &next), "{left} to {right} in {state:?}");
                }
            }
            Statement::Implication { left, right } if true_in(left, state) => {
                live += 1;
                assert!(true_in(right, state), "{left} to {right} in {state:?}");
            }
            Statement::Inclusion { left, right } if sees(state, 1, left) => {
                live += 1;
                assert!(sees(state, 1, right), "{left} in {right} in {state:?}");
            }
            _ => {}
        }
    }
    live
}

#[test]
fn justified_lines_are_true() {
    let mut live: BTreeMap<u8, usize> = BTreeMap::new();
    for seed in 0..6000 {
        let Ok(image) = decode(&image(seed)) else {
            continue;
        };
        let states = reachable(&image.program, BOUNDS);
        let states = &states[..states.len().min(60)];
        for (line, justified) in image.lines.iter().zip(justified_lines(&image)) {
            let generic = matches!(line.rule, 1 | 2 | 16 | 20) && seed % 20 != 0;
            if justified && !generic {
                *live.entry(line.rule).or_default() += live_checks(&image.program, states, line);
            }
        }
    }
    for rule in rules() {
        let count = live.get(&rule).copied().unwrap_or(0);
        println!("rule {rule}: {count} live checks");
        assert!(count > 0, "rule {rule} was never live");
    }
}
