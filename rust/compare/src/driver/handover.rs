//! Handovers, and replays across them: both sides on the stored and on generated ones.

use super::replay::{before, difference};
use super::tally::Tally;
use super::MANY;
use crate::proved::{check_handover, replay_handover};
use reference::checker::accepted;
use reference::handover::{self, between, replayed_across, Traces, UNLIKE};
use reference::replay::room;
use sets::generate::handovers::{crossing, pair, Crossing, Pair};
use sets::generate::random::Random;
use sets::vectors::handovers;

const CODES: [u16; 4] = [0, 32, 33, 34];
const CROSSING_CODES: [u16; 8] = [0, 1, 27, 28, 29, 32, 33, 34];
/// So many crossings of a pair.
const CROSSINGS: usize = 2;

/// Both calls, with the codes on which the two sides agree.
struct Both {
    checks: Tally,
    crossings: Tally,
}

/// Compares on the stored handovers and on those of so many seeds; false if an answer differs or some code never comes.
pub fn run(pairs: u64, first: u64) -> bool {
    let mut stored = Both::new();
    let cases = handovers::cases().into_iter().map(|case| (case.label, case.pair));
    for (seed, (label, pair)) in (0..).zip(cases) {
        if !stored.agrees(&label, &pair, seed) {
            return false;
        }
    }
    for case in handovers::crossings() {
        if !stored.agrees_on(&case.label, &case.pair, std::slice::from_ref(&case.crossing), 1) {
            return false;
        }
    }
    stored.tell("stored");
    let mut generated = Both::new();
    for offset in 0..pairs {
        let seed = first.wrapping_add(offset);
        if !generated.agrees(&format!("seed {seed}"), &pair(seed), seed) {
            return false;
        }
    }
    generated.tell(&format!("generated from seed {first}"));
    generated.has_all(pairs)
}

impl Both {
    fn new() -> Both {
        Both { checks: Tally::of("handovers"), crossings: Tally::of("replays") }
    }

    /// Whether both sides agree on a pair, and on replays across it.
    fn agrees(&mut self, label: &str, pair: &Pair, seed: u64) -> bool {
        let handover = handover::permitted(&pair.old, &pair.new, &pair.table).ok();
        let random = &mut Random::new(seed);
        let all: Vec<Crossing> =
            (0..CROSSINGS).map(|_| crossing(random, handover.as_ref())).collect();
        self.agrees_on(label, pair, &all, seed)
    }

    fn agrees_on(&mut self, label: &str, pair: &Pair, crossings: &[Crossing], seed: u64) -> bool {
        let found = self.compare(pair, crossings, &mut Random::new(seed));
        if let Err(found) = &found {
            println!("DIFFERENCE: {label}\n{found}");
            write_pair(pair);
        }
        found.is_ok()
    }

    fn compare(
        &mut self,
        pair: &Pair,
        crossings: &[Crossing],
        random: &mut Random,
    ) -> Result<(), String> {
        let Pair { old, new, table: points } = pair;
        let handover = match (accepted(old), accepted(new)) {
            (Some(old), Some(new)) => between(&old, &new, points),
            _ => Err(UNLIKE),
        };
        let expected = handover.as_ref().err().copied().unwrap_or(0);
        let found = check_handover(old, new, points);
        if found != expected {
            return Err(format!("proved: {found}, independent: {expected}"));
        }
        self.checks.count(found);
        for crossing in crossings {
            let Crossing { call, second } = crossing;
            let traces = Traces { first: &call.trace, second, given: &call.given };
            let before = before(random, call);
            let (mut proved, mut independent) = (before.clone(), before);
            let (table, answer) = proved.lent(call);
            let run = handover::Across { old, new, points, traces };
            proved.code = replay_handover(&run, table, answer);
            let (table, answer) = independent.lent(call);
            let replayed = replayed_across(handover.as_ref(), &traces, room(call.table));
            independent.code = replayed.put(table, answer);
            if proved != independent {
                return Err(difference(crossing, &proved, &independent));
            }
            self.crossings.count(proved.code);
        }
        Ok(())
    }

    fn tell(&self, name: &str) {
        println!("{name}: {}", self.checks);
        println!("{name}: {}", self.crossings);
    }

    /// Whether each code came, if there were many pairs.
    fn has_all(&self, pairs: u64) -> bool {
        let mut missing = self.checks.missing(&CODES);
        missing.extend(self.crossings.missing(&CROSSING_CODES));
        if pairs >= MANY && !missing.is_empty() {
            println!("codes that never came: {missing:?}");
            return false;
        }
        true
    }
}

fn write_pair(pair: &Pair) {
    for (name, bytes) in
        [("old.image", &pair.old), ("new.image", &pair.new), ("points.table", &pair.table)]
    {
        let path = format!("difference-{name}");
        match std::fs::write(&path, bytes) {
            Ok(()) => println!("written: {path}"),
            Err(error) => println!("{path}: {error}"),
        }
    }
}
