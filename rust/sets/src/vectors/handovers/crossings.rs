//! Replays across a handover.

use super::{table_with, with_itself};
use crate::examples::update::{new_code, old_code, TABLE};
use crate::examples::{message_passing, two_writes};
use crate::generate::handovers::{self, crossing, Crossing, Pair};
use crate::generate::random::Random;
use crate::generate::traces::Call;
use reference::handover::permitted;
use reference::replay::{ANSWER, MOST_WRITES, WRITE_BYTES};

/// Two images, a table, and what the call is given besides them.
#[derive(Clone, Debug, PartialEq, Eq)]
pub struct CrossingCase {
    pub label: String,
    pub pair: Pair,
    pub crossing: Crossing,
}

/// Generated pairs that are longer are left out.
const LONGEST: usize = 1500;
/// So many of them are taken.
const GENERATED: usize = 30;

/// All cases of the set.
pub fn cases() -> Vec<CrossingCase> {
    [splits(), updates(), refused(), rooms(), generated()].concat()
}

/// A table of 64 entries, no register given, and room for the answer and no more.
fn case(label: impl Into<String>, pair: Pair, first: &[u8], second: &[u8]) -> CrossingCase {
    let table = MOST_WRITES * WRITE_BYTES;
    let call = Call { trace: first.to_vec(), given: Vec::new(), table, numbers: ANSWER };
    CrossingCase { label: label.into(), pair, crossing: Crossing { call, second: second.to_vec() } }
}

/// Runs that are handed over behind each number of steps: they end as they do without it.
fn splits() -> Vec<CrossingCase> {
    let passed: &[u8] = &[2, 0, 2, 0, 1, 0, 1, 0, 2, 1, 2, 0, 2, 1];
    let written: &[u8] = &[1, 0, 2, 1, 1, 1, 2, 2];
    let mut cases = Vec::new();
    for (name, image, trace) in
        [("message passing", message_passing(), passed), ("two writes", two_writes(), written)]
    {
        let pair = with_itself(&image.bytes());
        for steps in 0..=trace.len() / 2 {
            let (first, second) = trace.split_at(2 * steps);
            cases.push(case(
                format!("{name}: handed over behind {steps} steps"),
                pair.clone(),
                first,
                second,
            ));
        }
    }
    cases
}

fn update(table: &[u8]) -> Pair {
    Pair { old: old_code().bytes(), new: new_code().bytes(), table: table.to_vec() }
}

/// To the new code, with thread 2 at other points than it was.
fn updates() -> Vec<CrossingCase> {
    let elsewhere = update(&table_with(&[(9, 2), (12, 1)]));
    let stays = update(&TABLE);
    let all = [
        ("nothing", &[][..], &[][..]),
        ("the first trace alone", &[1, 0, 2, 0, 1, 0], &[]),
        ("the second trace alone", &[], &[1, 0, 2, 0, 2, 0]),
        ("a step before and one behind", &[1, 0], &[1, 0]),
        ("stores before and behind", &[2, 0], &[2, 1]),
        ("27: thread 1 at its new last point", &[1, 0], &[1, 0, 1, 0]),
        ("28: before its own write", &[2, 0], &[2, 0]),
        ("28: behind the row", &[2, 0], &[1, 0, 2, 2, 1, 0]),
        ("27: half a step behind", &[1, 0, 2, 0], &[1, 0, 1]),
        ("27: half a step before", &[1, 0, 2], &[1, 0]),
        ("27: at the old last point", &[1, 0, 1, 0, 1, 0], &[1, 0]),
        ("27: thread 2 at the old last point", &[2, 0, 2, 1], &[2, 1]),
        ("28: in the first trace", &[2, 1], &[2, 0]),
        ("27: thread 3 in the second trace", &[1, 0], &[3, 0]),
        ("27: thread 0 in the first trace", &[0, 0], &[1, 0]),
    ];
    let mut cases = Vec::new();
    for (label, first, second) in all {
        cases.push(case(label, stays.clone(), first, second));
    }
    // Thread 2 goes on at its last point, or begins behind a store that it did not make.
    cases.push(case("27: thread 2 handed over to its last point", elsewhere.clone(), &[], &[2, 0]));
    cases.push(case(
        "thread 2 handed over from its last point",
        elsewhere.clone(),
        &[2, 0],
        &[2, 1],
    ));
    let start = case("29: no entry, points as at the old start", elsewhere, &[2, 0], &[2, 1]);
    cases.push(lent(start, WRITE_BYTES - 1, ANSWER));
    for bytes in [&[9][..], &[9, 13], &[7; 16], &[255; 20]] {
        let base =
            case(format!("{} registers given", bytes.len()), stays.clone(), &[1, 0], &[1, 0]);
        cases.push(given(base, bytes));
    }
    cases
}

/// Handovers that are not permitted, with traces and room that are not asked for.
fn refused() -> Vec<CrossingCase> {
    let unlike = Pair { new: message_passing().bytes(), ..update(&TABLE) };
    let pairs = [
        ("32: unlike", unlike),
        ("32: the new image refused", Pair { new: Vec::new(), ..update(&TABLE) }),
        ("32: the old image refused", Pair { old: vec![1], ..update(&[]) }),
        ("33: no table", update(&[])),
        ("33: line 0", update(&table_with(&[(13, 0)]))),
        ("33: no such point", update(&table_with(&[(0, 2)]))),
        ("34: another line", update(&table_with(&[(1, 2)]))),
        ("34: another point", update(&table_with(&[(3, 1)]))),
    ];
    let mut cases = Vec::new();
    for (label, pair) in pairs {
        cases.push(case(label, pair.clone(), &[1, 0], &[1, 0]));
        // Before a step that is refused, and before a table that is too small.
        let other = case(format!("{label}, no entry"), pair, &[9], &[]);
        cases.push(lent(other, 0, ANSWER + 3));
    }
    cases
}

fn given(base: CrossingCase, bytes: &[u8]) -> CrossingCase {
    let call = Call { given: bytes.to_vec(), ..base.crossing.call };
    CrossingCase { crossing: Crossing { call, ..base.crossing }, ..base }
}

fn lent(base: CrossingCase, table: usize, numbers: usize) -> CrossingCase {
    let call = Call { table, numbers, ..base.crossing.call };
    CrossingCase { crossing: Crossing { call, ..base.crossing }, ..base }
}

/// Tables that are full in either trace, and answers that are too short.
fn rooms() -> Vec<CrossingCase> {
    let mut cases = Vec::new();
    for (entries, label) in [
        (0, "29: no entry for the start write"),
        (1, "29: an entry for the start write"),
        (2, "29: two entries"),
        (3, "29: three entries"),
        (4, "four entries"),
        (65, "65 entries"),
    ] {
        let stores = case(label, update(&table_with(&[(12, 0)])), &[2, 0], &[2, 1, 2, 2, 1, 0]);
        cases.push(lent(stores, entries * WRITE_BYTES + 7, ANSWER));
    }
    let passing = with_itself(&message_passing().bytes());
    cases.push(lent(case("29: no entry, nothing to do", update(&TABLE), &[], &[]), 0, ANSWER));
    cases.push(lent(case("29: one entry for two words", passing, &[], &[]), WRITE_BYTES, ANSWER));
    let open = case("29: no entry, a register given", update(&TABLE), &[], &[]);
    cases.push(lent(given(open, &[9, 13]), 0, ANSWER));
    for numbers in [0, 20, 21, 30] {
        for (name, table) in [("permitted", &TABLE[..]), ("not permitted", &[])] {
            let label = format!("{name}, {numbers} numbers");
            cases.push(lent(case(label, update(table), &[1, 0], &[]), 0, numbers));
        }
    }
    cases
}

/// Pairs and traces by their seeds; most are permitted.
fn generated() -> Vec<CrossingCase> {
    let mut cases = Vec::new();
    for seed in 0.. {
        let pair = handovers::pair(seed);
        let handover = permitted(&pair.old, &pair.new, &pair.table).ok();
        if pair.old.len() + pair.new.len() < LONGEST && (handover.is_some() || seed % 8 == 0) {
            let crossing = crossing(&mut Random::new(seed), handover.as_ref());
            cases.push(CrossingCase { label: format!("seed {seed}"), pair, crossing });
        }
        if cases.len() == GENERATED {
            break;
        }
    }
    cases
}
