//! Traces of the examples worked out by hand, and what is said of every state reached.

use reference::checker::accepted;
use reference::explore::truth::is_true;
use reference::replay::{replay, run, start, ANSWER};
use sets::examples::message_passing;
use sets::generate::random::Random;
use sets::generate::traces;
use std::collections::BTreeMap;

/// The reader polls once, the writer writes, and the reader reads the flag and then the data.
const PASSED: [u8; 14] = [2, 0, 2, 0, 1, 0, 1, 0, 2, 1, 2, 0, 2, 1];

#[test]
fn message_passing_by_hand() {
    let (mut table, mut answer) = ([9; 60], [9; ANSWER]);
    let code = replay(&message_passing().bytes(), &PASSED, &[], &mut table, &mut answer);
    assert_eq!((code, &answer[..7]), (0, &[7, 2, 3, 0, 0, 1, 5][..]));
    assert!(answer[7..].iter().all(|&number| number == 0));
    let entries = [
        [0, 0, 0, 0, 0, 0, 0, 0, 0, 0, 0],
        [5, 0, 0, 1, 0, 0, 0, 0, 0, 0, 0],
        [0, 0, 0, 0, 0, 0, 0, 0, 0, 0, 0],
        [1, 1, 0, 1, 1, 0, 0, 0, 0, 0, 0],
    ];
    assert_eq!(table[..44], entries.concat());
    assert_eq!(table[44..], [9; 16]);
}

#[test]
fn each_front_of_a_trace_takes_its_steps() {
    let image = message_passing().bytes();
    for length in 0..=PASSED.len() {
        let (mut table, mut answer) = ([0; 44], [9; ANSWER]);
        let code = replay(&image, &PASSED[..length], &[], &mut table, &mut answer);
        assert_eq!((code, answer[0]), (if length % 2 == 0 { 0 } else { 27 }, length / 2));
    }
}

/// Every assertion of an accepted image is true wherever a trace leads.
#[test]
fn assertions_are_true_in_the_state_reached() {
    let mut checked = 0;
    for seed in 0..1500 {
        let Some(image) = accepted(&traces::image(seed)) else {
            continue;
        };
        let program = &image.program;
        let random = &mut Random::new(seed);
        let call = traces::call(random, Some(program));
        let mut state = start(&program.header, &call.given);
        // Exact truth looks at every prospect, so rows have to be short.
        let room = state.rows.len() + 4;
        run(&program.threads, &mut state, &call.trace, room);
        for (thread, &point) in (1..).zip(&state.points) {
            let assertion = program.assertion(thread, point);
            assert!(is_true(assertion, &state, &program.header), "seed {seed}, thread {thread}");
            checked += 1;
        }
    }
    assert!(checked > 1500, "{checked}");
}

#[test]
fn every_code_and_length_is_generated() {
    let (mut codes, mut steps) = (BTreeMap::new(), BTreeMap::new());
    let (mut given, mut tails, mut full) = ([0; 21], [0; 11], 0);
    for seed in 0..3000 {
        let image = traces::image(seed);
        let program = accepted(&image).map(|image| image.program);
        let call = traces::call(&mut Random::new(seed), program.as_ref());
        let (mut table, mut answer) = (vec![0; call.table], vec![0; call.numbers]);
        let code = replay(&image, &call.trace, &call.given, &mut table, &mut answer);
        *codes.entry(code).or_insert(0) += 1;
        given[call.given.len()] += 1;
        tails[call.table % 11] += 1;
        if let Some(&taken) = answer.first().filter(|_| code >= 27) {
            *steps.entry((code, taken.min(5))).or_insert(0) += 1;
            full += usize::from(code == 29 && call.table >= 64 * 11);
        }
    }
    assert!(
        codes.keys().eq(&[0, 1, 24, 27, 28, 29]) && codes.values().all(|&n| n > 50),
        "{codes:?}"
    );
    // Each code that a step can have, behind 0 to 4 steps and behind more.
    assert!(steps.len() == 18 && steps.values().all(|&n| n >= 5), "{steps:?}");
    assert!(given.iter().chain(&tails).all(|&n| n > 20) && full > 10, "{given:?} {tails:?} {full}");
}
