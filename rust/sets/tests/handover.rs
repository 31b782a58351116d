//! Runs across permitted handovers: every state under the new code satisfies the new assertions.

use reference::explore::truth::is_true;
use reference::explore::{across, Bounds};
use reference::handover::{permitted, Handover};
use reference::machine::State;
use reference::replay::start;
use sets::generate::handovers::pair;
use sets::generate::random::Random;
use sets::generate::traces::permitted_from;

const BOUNDS: Bounds = Bounds { steps: 3, writes: 3, starts: 4, states: 300 };

fn handovers(seeds: u64) -> impl Iterator<Item = (u64, Handover)> {
    (0..seeds).filter_map(|seed| {
        let pair = pair(seed);
        Some((seed, permitted(&pair.old, &pair.new, &pair.table).ok()?))
    })
}

#[test]
fn every_short_run() {
    let (mut count, mut states) = (0, 0);
    for (seed, handover) in handovers(1500) {
        let found = across(&handover, BOUNDS);
        assert_eq!(found.broken, None, "seed {seed}");
        count += 1;
        states += found.states.1;
    }
    println!("{count} handovers, {states} states under the new code");
    assert!(count > 500 && states > 30_000, "{count} handovers, {states} states");
}

fn assert_true(seed: u64, handover: &Handover, state: &State) {
    for (thread, &point) in (1..).zip(&state.points) {
        let assertion = handover.new.assertion(thread, point);
        assert!(is_true(assertion, state, &handover.new.header), "seed {seed}, thread {thread}");
    }
}

/// Some steps before and behind, with registers of which the open ones hold anything.
#[test]
fn longer_runs() {
    let mut moved = 0;
    for (seed, handover) in handovers(1500) {
        let random = &mut Random::new(seed);
        for _ in 0..4 {
            let given: Vec<u8> = (0..16).map(|_| random.draw() as u8).collect();
            let (before, behind) = (random.below(12), random.below(8));
            let state = start(&handover.old.header, &given);
            let (_, state) = permitted_from(random, &handover.old.threads, state, before);
            let mut state = handover.mapped(&state);
            assert_true(seed, &handover, &state);
            for _ in 0..behind {
                let (trace, next) = permitted_from(random, &handover.new.threads, state, 1);
                state = next;
                moved += trace.len() / 2;
                assert_true(seed, &handover, &state);
            }
        }
    }
    println!("{moved} steps under the new code");
    assert!(moved > 3000, "{moved} steps under the new code");
}
