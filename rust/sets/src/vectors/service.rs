//! Calls of several callers to one service, each on what the one before has left.

use super::images::SMALL;
use super::refused::by_code;
use crate::generate::harness;
use crate::generate::random::Random;
use crate::generate::traces::repeating;
use reference::bill::Tariff;
use reference::formula::parse::Counts;
use reference::formula::Assertion;
use reference::image::Header;
use reference::proof::implies;
use reference::service::SERVICE;
use reference::stored::service::{Turn, TurnKind, BYTES, NUMBERS};

/// A turn with its label.
#[derive(Clone, Debug, PartialEq, Eq)]
pub struct TurnCase {
    pub label: String,
    pub turn: Turn,
}

const RECORD: usize = 22;
const BILL: usize = 6;
const REPLAY: usize = 21;
const PRICES: Tariff =
    Tariff { start: 70, step: 500, taken: 6_000, interference: 65_535, least: 25 };
/// The six calls.
const CALLS: [TurnKind; 6] = [
    TurnKind::Check,
    TurnKind::Trim,
    TurnKind::Bill,
    TurnKind::Handover,
    TurnKind::Replay,
    TurnKind::ReplayHandover,
];
/// Those that are none of the eight.
const OUTSIDE: [usize; 6] = [0, 9, 16, 257, 300, 4_294_967_295];
/// Somebody has each choice of rights.
const EACH: [u8; 8] = [7, 1, 2, 4, 3, 5, 6, 0];

/// All cases of the set, in the order in which they are served.
pub fn cases() -> Vec<TurnCase> {
    [
        every_call("before the opening", &[0, 1, 8]),
        vec![open("each choice of rights", &EACH)],
        every_call("each choice of rights", &[1, 2, 3, 4, 5, 6, 7, 8]),
        every_call("no caller", &OUTSIDE),
        rooms(),
        verdicts(),
        handovers(),
        replays(),
        additions(),
        bills(),
        ends(),
        openings(),
        mixed(),
        short_services(),
    ]
    .concat()
}

/// The small image with a second line, from "true" to "true", on which nothing rests.
fn with_line() -> Vec<u8> {
    [&SMALL[..44], &[10, 0, 5, 0, 20, 0, 0, 1, 0, 1, 0, 0], &SMALL[44..]].concat()
}

/// The same with another start value.
fn started_at_1() -> Vec<u8> {
    let mut image = with_line();
    image[8] = 1;
    image
}

/// One thread that adds 1 to the word again and again, its register open at the start; its first line goes from "true" to
/// "true".
fn adding() -> Vec<u8> {
    let counts = Counts { threads: 1, words: 1, registers: 1, range: 8 };
    let header = Header { counts, start: vec![3], owners: vec![1], marks: vec![0] };
    let mut plan = harness::plan(harness::program(header, vec![repeating(1, Some(1))]));
    plan.spare = vec![implies(20, Assertion::truth(), Assertion::truth(), &[])];
    plan.bytes()
}

fn case(label: impl Into<String>, turn: Turn) -> TurnCase {
    TurnCase { label: label.into(), turn }
}

fn open(label: &str, rights: &[u8]) -> TurnCase {
    let parts = [rights.to_vec(), vec![], vec![], vec![], vec![], vec![]];
    let turn = Turn {
        kind: TurnKind::Open,
        service: SERVICE,
        caller: 0,
        parts,
        bytes: 0,
        numbers: 0,
        tariff: PRICES,
    };
    case(format!("open: {label}"), turn)
}

fn set(caller: usize, number: u32) -> TurnCase {
    let none = open("", &[]).turn;
    let turn = Turn { kind: TurnKind::Set, caller, numbers: number as usize, ..none };
    case(format!("number of {caller} set to {number}"), turn)
}

/// A call that is served, for one who has the right, with all the room there is.
fn call(kind: TurnKind, caller: usize) -> Turn {
    let (old, new, stay) = (SMALL.to_vec(), with_line(), vec![0, 2, 0]);
    let none = Vec::new;
    let parts = match kind {
        TurnKind::Handover | TurnKind::ReplayHandover => [old, new, stay, none(), none(), none()],
        TurnKind::Trim => [new, none(), none(), none(), none(), none()],
        _ => [old, none(), none(), none(), none(), none()],
    };
    Turn { kind, service: SERVICE, caller, parts, bytes: BYTES, numbers: NUMBERS, tariff: PRICES }
}

/// The six calls, served or refused.
fn every_call(label: &str, callers: &[usize]) -> Vec<TurnCase> {
    let of_one = |&caller: &usize| {
        CALLS.map(|kind| case(format!("{label}: {kind:?} by {caller}"), call(kind, caller)))
    };
    callers.iter().flat_map(of_one).collect()
}

/// Every length of buffer about the one that is wanted, by one who has the right and by others: 35 and 36 come first.
fn rooms() -> Vec<TurnCase> {
    let wanted = [
        (TurnKind::Check, RECORD),
        (TurnKind::Trim, SMALL.len()),
        (TurnKind::Bill, BILL),
        (TurnKind::Replay, REPLAY),
        (TurnKind::ReplayHandover, REPLAY),
    ];
    let mut cases = Vec::new();
    for (kind, wanted) in wanted {
        for caller in [1, 8, 9] {
            for room in [0, wanted - 1, wanted, wanted + 1] {
                let numbers =
                    if kind == TurnKind::Check || kind == TurnKind::Trim { NUMBERS } else { room };
                let bytes = if numbers == NUMBERS { room } else { BYTES };
                let turn = Turn { bytes, numbers, ..call(kind, caller) };
                cases.push(case(format!("{kind:?} by {caller}: room for {room}"), turn));
            }
        }
    }
    cases
}

/// An image of each code: checked, trimmed, billed and replayed.
fn verdicts() -> Vec<TurnCase> {
    let mut cases = Vec::new();
    for (code, image) in by_code() {
        for (kind, caller) in
            [(TurnKind::Check, 2), (TurnKind::Trim, 5), (TurnKind::Bill, 4), (TurnKind::Replay, 3)]
        {
            let mut turn = call(kind, caller);
            turn.parts[0].clone_from(&image);
            cases.push(case(format!("verdict {code}: {kind:?} by {caller}"), turn));
        }
    }
    cases
}

/// Tables and images that are not right, with and without replay.
fn handovers() -> Vec<TurnCase> {
    let wrong = [
        ("32: an image not accepted", 1, SMALL[..49].to_vec()),
        ("32: unlike", 1, started_at_1()),
        ("33: no table", 2, Vec::new()),
        ("33: line above", 2, vec![0, 3, 0]),
        ("34: from the start", 2, vec![0, 1, 0]),
    ];
    let mut cases = Vec::new();
    for (label, place, part) in wrong {
        for (kind, caller) in
            [(TurnKind::Handover, 2), (TurnKind::Handover, 3), (TurnKind::ReplayHandover, 3)]
        {
            let mut turn = call(kind, caller);
            turn.parts[place].clone_from(&part);
            cases.push(case(format!("{label}: {kind:?} by {caller}"), turn));
        }
    }
    cases
}

/// Traces of an image whose one thread is at its last point.
fn replays() -> Vec<TurnCase> {
    let mut cases = Vec::new();
    for (kind, trace) in
        [(TurnKind::Replay, 1), (TurnKind::ReplayHandover, 3), (TurnKind::ReplayHandover, 4)]
    {
        for (label, steps) in [("27: at the last point", vec![1, 0]), ("27: half a step", vec![1])]
        {
            let mut turn = call(kind, 7);
            turn.parts[trace] = steps;
            cases.push(case(format!("{label}: {kind:?}, part {trace}"), turn));
        }
        for bytes in [0, 10, 11, 12] {
            let turn = Turn { bytes, ..call(kind, 5 + 2 * usize::from(trace == 1)) };
            cases.push(case(format!("{kind:?}, part {trace}: {bytes} bytes of table"), turn));
        }
    }
    cases
}

/// Traces of an image that adds; the table has room for the start write and four more.
fn additions() -> Vec<TurnCase> {
    let traces: [(&str, &[u8]); 6] = [
        ("nothing", &[]),
        ("two additions", &[1, 0, 1, 0, 1, 1]),
        ("28: a covered write", &[1, 0, 1, 0, 1, 0]),
        ("28: a position that is not there", &[1, 1]),
        ("27: no such thread", &[1, 0, 2, 0]),
        ("29: the fifth", &[1, 0, 1, 0, 1, 1, 1, 0, 1, 2, 1, 0, 1, 3, 1, 0, 1, 4]),
    ];
    let mut cases = Vec::new();
    for (label, trace) in traces {
        let mut alone = call(TurnKind::Replay, 1);
        alone.parts = [adding(), trace.to_vec(), vec![13], vec![], vec![], vec![]];
        cases.push(case(format!("{label}: Replay"), alone));
        // The first addition under the old code, the rest under the new one.
        let (first, second) = trace.split_at(trace.len().min(2));
        let stay = vec![0, 1, 0, 1, 1, 0, 2, 1, 0];
        let mut across = call(TurnKind::ReplayHandover, 7);
        across.parts = [adding(), adding(), stay, first.to_vec(), second.to_vec(), vec![6]];
        cases.push(case(format!("{label}: ReplayHandover"), across));
    }
    cases
}

/// Bills of several callers by turns: each has a number of its own.
fn bills() -> Vec<TurnCase> {
    let mut cases = Vec::new();
    for (place, caller) in [1, 4, 1, 6, 7, 4, 2, 4, 8, 1, 9, 6].into_iter().enumerate() {
        let least = [25, 70, 71, 65_535][place % 4];
        let tariff = Tariff { least, ..PRICES };
        let turn = Turn { tariff, numbers: BILL + place % 3, ..call(TurnKind::Bill, caller) };
        cases.push(case(format!("turn {place}: bill by {caller}"), turn));
    }
    cases
}

/// Numbers at their end: 31 concerns the caller alone.
fn ends() -> Vec<TurnCase> {
    let bill = |caller: usize, label: &str| {
        case(format!("{label}: bill by {caller}"), call(TurnKind::Bill, caller))
    };
    let mut refused = call(TurnKind::Bill, 4);
    refused.parts[0].pop();
    vec![
        set(4, u32::MAX - 1),
        bill(4, "the last one"),
        bill(4, "31"),
        case("30 before 31: bill by 4", refused),
        bill(1, "another's end"),
        set(6, u32::MAX),
        bill(6, "31"),
        bill(7, "another's end"),
        set(4, 9),
        bill(4, "set back"),
        set(8, u32::MAX),
        bill(8, "36"),
    ]
}

/// Opened again: all numbers are 0, and the rights are those given.
fn openings() -> Vec<TurnCase> {
    let mut cases = Vec::new();
    let given: [(&str, &[u8]); 5] = [
        ("none", &[]),
        ("modulo 8", &[255, 8, 9, 10, 12, 128, 15, 64]),
        ("three of them", &[4, 1, 2]),
        ("nine of them", &[0, 1, 2, 3, 4, 5, 6, 4, 7]),
        ("all", &[7; 8]),
    ];
    for (label, rights) in given {
        cases.push(open(label, rights));
        for caller in [1, 2, 3, 8] {
            for kind in [TurnKind::Check, TurnKind::Replay, TurnKind::Bill] {
                cases.push(case(format!("{label}: {kind:?} by {caller}"), call(kind, caller)));
            }
        }
    }
    cases
}

/// Calls of all kinds by everybody, in an order without a pattern.
fn mixed() -> Vec<TurnCase> {
    let random = &mut Random::new(13);
    let mut cases = vec![open("each choice of rights again", &EACH)];
    for place in 0..60 {
        let caller = *random.pick(&[1, 1, 1, 2, 3, 4, 4, 5, 6, 6, 7, 8, 0, 9]);
        let kind = *random.pick(&CALLS);
        let mut turn = call(kind, caller);
        if random.chance(20) {
            turn.parts[0].pop();
        }
        cases.push(case(format!("mixed {place}: {kind:?} by {caller}"), turn));
    }
    cases
}

/// A service that is too short: it cannot be opened, a caller whose right is not in it has none (36), and one whose number is not in it is
/// not billed.
fn short_services() -> Vec<TurnCase> {
    let mut cases = vec![open("all rights, before shorter ones", &[7; 8])];
    for lent in [0, 1, 7, 8, 9, 15] {
        let rights = vec![7, 7, 7];
        let opening = Turn { service: lent, ..open("", &rights).turn };
        cases.push(case(format!("open: a service of {lent} numbers"), opening));
        for caller in [1, 2, 8] {
            for kind in CALLS {
                let turn = Turn { service: lent, ..call(kind, caller) };
                cases.push(case(format!("service of {lent} numbers: {kind:?} by {caller}"), turn));
            }
        }
    }
    cases
}
