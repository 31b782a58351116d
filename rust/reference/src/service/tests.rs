//! Calls of several callers, worked out by hand.
use super::*;
use crate::bill::ANSWER;
use crate::handover::Traces;
use std::rc::Rc;

/// The scope page's small image, with a range of 8. It has one obligation, of class 1.
const SMALL: [u8; 50] = [
    7, 0, 1, 0, 1, 1, 0, 8, 0, 5, 0, 2, 0, 28, 11, 8, 3, 0, 2, 0, 27, 3, 0, 3, 0, 1, 4, 0, 4, 0, 1,
    0, 10, 0, 5, 0, 20, 0, 0, 2, 0, 1, 0, 0, 4, 0, 6, 0, 1, 0,
];
const TARIFF: Tariff = Tariff { start: 70, step: 1, taken: 1, interference: 1, least: 25 };

const ALL: u8 = 7;

/// The small image with a second line, from "true" to "true", on which nothing rests.
fn with_line() -> Vec<u8> {
    [&SMALL[..44], &[10, 0, 5, 0, 20, 0, 0, 1, 0, 1, 0, 0], &SMALL[44..]].concat()
}

/// The table that leaves the one point where it is, by that line.
const STAY: [u8; 3] = [0, 2, 0];
/// The one start write: value 0, no mark, nothing but itself in its view.
const START: [u8; 11] = [0; 11];

/// An empty trace of the small image, and two across its handover.
fn runs(new: &[u8]) -> (Run<'_>, Across<'_>) {
    let traces = Traces { first: &[], second: &[], given: &[] };
    (
        Run { image: &SMALL, trace: &[], given: &[] },
        Across { old: &SMALL, new, points: &STAY, traces },
    )
}

fn opened(rights: &[u8]) -> [u32; SERVICE] {
    let mut service = [9; SERVICE];
    assert_eq!(open_service(rights, &mut service), 0);
    service
}

/// A bill of the small image into six numbers.
fn billed(service: &mut [u32], caller: usize) -> (u16, [u32; ANSWER]) {
    let mut answer = [9; ANSWER];
    let code = serve_bill(service, caller, &SMALL, &TARIFF, &mut answer);
    (code, answer)
}

#[test]
fn opening() {
    assert_eq!(opened(&[]), [0; SERVICE]);
    assert_eq!(opened(&[1, 2, 4]), [1, 2, 4, 0, 0, 0, 0, 0, 0, 0, 0, 0, 0, 0, 0, 0]);
    // Modulo 8, and a ninth byte is nobody's.
    let given = [7, 8, 9, 15, 255, 0, 3, 5, 7];
    assert_eq!(opened(&given), [7, 0, 1, 7, 7, 0, 3, 5, 0, 0, 0, 0, 0, 0, 0, 0]);
    let mut short = [9; SERVICE - 1];
    assert_eq!((open_service(&[ALL; 8], &mut short), short), (1, [9; SERVICE - 1]));
    let mut long = [9; SERVICE + 1];
    assert_eq!(open_service(&[ALL; 8], &mut long), 0);
    assert_eq!((long[0], long[7], long[8], long[15], long[16]), (7, 7, 0, 0, 9));
}

#[test]
fn each_right_alone() {
    for rights in 0..8 {
        let mut service = opened(&[0, 0, rights]);
        let (may_check, may_bill) = (rights & 1 != 0, rights & 4 != 0);
        let mut out = [9; 64];
        let expected = if may_check { 0 } else { 36 };
        assert_eq!(serve_check(&service, 3, &SMALL, &mut out), expected, "{rights}");
        let expected = Answer { code: expected, length: if may_check { 50 } else { 0 } };
        assert_eq!(serve_trim(&service, 3, &SMALL, &mut out), expected, "{rights}");
        let expected = if may_check { 0 } else { 36 };
        assert_eq!(serve_handover(&service, 3, &SMALL, &with_line(), &STAY), expected, "{rights}");
        let new = with_line();
        let (run, across) = runs(&new);
        let expected = if rights & 2 != 0 { (0, START) } else { (36, [9; 11]) };
        let (mut table, mut answer) = ([9; 11], [9; 21]);
        let code = serve_replay(&service, 3, &run, &mut table, &mut answer);
        assert_eq!(((code, table), answer), (expected, [0; 21]), "{rights}");
        let (mut table, mut answer) = ([9; 11], [9; 22]);
        let code = serve_replay_handover(&service, 3, &across, &mut table, &mut answer);
        assert_eq!((code, table), expected, "{rights}");
        assert_eq!((&answer[..21], answer[21]), (&[0; 21][..], 9), "{rights}");
        let expected = if may_bill { 0 } else { 36 };
        assert_eq!(billed(&mut service, 3).0, expected, "{rights}");
        assert_eq!(billed(&mut service, 2).0, 36, "a neighbour's right");
        assert_eq!(billed(&mut service, 4).0, 36, "a neighbour's right");
    }
}

#[test]
fn callers_are_1_to_8() {
    let mut service = opened(&[ALL; 8]);
    for caller in 1..=8 {
        assert_eq!(serve_check(&service, caller, &SMALL, &mut [0; 22]), 0);
        assert_eq!(billed(&mut service, caller), (0, [70, 1, 70, 0, 0, 0]));
    }
    for caller in [0, 9, 10, 16, 17, 256, 257, 300, usize::MAX] {
        assert_eq!(serve_check(&service, caller, &SMALL, &mut [0; 22]), 35);
        assert_eq!(serve_trim(&service, caller, &SMALL, &mut [0; 64]).code, 35);
        assert_eq!(billed(&mut service, caller), (35, [0; 6]));
        assert_eq!(serve_handover(&service, caller, &SMALL, &SMALL, &STAY), 35);
        let (run, across) = runs(&[]);
        assert_eq!(serve_replay(&service, caller, &run, &mut [], &mut []), 35);
        assert_eq!(serve_replay_handover(&service, caller, &across, &mut [], &mut []), 35);
    }
}

#[test]
fn caller_then_right_then_the_rest() {
    // No rights at all: 35 all the same.
    let mut none = opened(&[]);
    assert_eq!(serve_check(&none, 9, &SMALL, &mut []), 35);
    assert_eq!(serve_check(&none, 8, &SMALL, &mut []), 36);
    assert_eq!(serve_trim(&none, 0, &[], &mut []).code, 35);
    assert_eq!(serve_trim(&none, 1, &[], &mut []).code, 36);
    assert_eq!(serve_bill(&mut none, 9, &[], &TARIFF, &mut []), 35);
    assert_eq!(serve_bill(&mut none, 8, &[], &TARIFF, &mut []), 36);
    let (run, across) = runs(&[]);
    assert_eq!(serve_handover(&none, 9, &[], &[], &[]), 35);
    assert_eq!(serve_handover(&none, 8, &[], &[], &[]), 36);
    assert_eq!(serve_replay(&none, 9, &run, &mut [], &mut []), 35);
    assert_eq!(serve_replay(&none, 8, &run, &mut [], &mut []), 36);
    assert_eq!(serve_replay_handover(&none, 0, &across, &mut [], &mut []), 35);
    assert_eq!(serve_replay_handover(&none, 1, &across, &mut [], &mut []), 36);
    let mut all = opened(&[ALL; 8]);
    assert_eq!(serve_check(&all, 8, &SMALL, &mut [0; 21]), 1);
    assert_eq!(serve_check(&all, 8, &[], &mut [0; 22]), 2);
    assert_eq!(serve_trim(&all, 8, &[], &mut []).code, 24);
    assert_eq!(serve_trim(&all, 8, &SMALL, &mut [0; 49]).code, 25);
    assert_eq!(serve_handover(&all, 8, &[], &SMALL, &STAY), 32);
    assert_eq!(serve_handover(&all, 8, &SMALL, &SMALL, &STAY), 33);
    assert_eq!(serve_handover(&all, 8, &SMALL, &with_line(), &[0, 1, 0]), 34);
    assert_eq!(serve_replay(&all, 8, &run, &mut [], &mut [0; 20]), 1);
    assert_eq!(serve_replay(&all, 8, &run, &mut [], &mut [0; 21]), 29);
    assert_eq!(serve_replay_handover(&all, 8, &across, &mut [], &mut [0; 20]), 1);
    assert_eq!(serve_replay_handover(&all, 8, &across, &mut [], &mut [0; 21]), 32);
    all[15] = u32::MAX;
    assert_eq!(serve_bill(&mut all, 8, &[], &TARIFF, &mut [0; 5]), 1);
    assert_eq!(serve_bill(&mut all, 8, &[], &TARIFF, &mut [0; 6]), 30);
    assert_eq!(serve_bill(&mut all, 8, &SMALL, &TARIFF, &mut [0; 6]), 31);
}

#[test]
fn a_refused_call_changes_nothing() {
    let mut service = opened(&[0; 8]);
    service[8..].copy_from_slice(&[11, 12, 13, 14, 15, 16, 17, 18]);
    let before = service;
    for caller in [0, 1, 8, 9] {
        let mut out = [9; 64];
        serve_check(&service, caller, &SMALL, &mut out);
        assert_eq!(serve_trim(&service, caller, &SMALL, &mut out).length, 0);
        assert_eq!(out, [9; 64]);
        let mut long = [9; 8];
        serve_bill(&mut service, caller, &SMALL, &TARIFF, &mut long);
        assert_eq!(long, [0, 0, 0, 0, 0, 0, 9, 9], "no number is told");
        let mut short = [9; 5];
        serve_bill(&mut service, caller, &SMALL, &TARIFF, &mut short);
        assert_eq!(short, [9; 5]);
        let new = with_line();
        let (run, across) = runs(&new);
        let (mut table, mut long, mut short) = ([9; 30], [9; 22], [9; 20]);
        serve_replay(&service, caller, &run, &mut table, &mut short);
        serve_replay_handover(&service, caller, &across, &mut table, &mut short);
        assert_eq!((table, short), ([9; 30], [9; 20]));
        serve_replay(&service, caller, &run, &mut table, &mut long);
        assert_eq!((&long[..21], long[21], table), (&[0; 21][..], 9, [9; 30]));
        let mut long = [9; 22];
        serve_replay_handover(&service, caller, &across, &mut table, &mut long);
        assert_eq!((&long[..21], long[21], table), (&[0; 21][..], 9, [9; 30]));
        assert_eq!(service, before);
    }
}

#[test]
fn each_caller_has_a_number() {
    let mut service = opened(&[4, 4, 0, 7]);
    assert_eq!(billed(&mut service, 1), (0, [70, 1, 70, 0, 0, 0]));
    assert_eq!(billed(&mut service, 2), (0, [70, 1, 70, 0, 0, 0]));
    assert_eq!(billed(&mut service, 1), (0, [70, 2, 70, 0, 0, 0]));
    assert_eq!(billed(&mut service, 3), (36, [0; 6]));
    assert_eq!(billed(&mut service, 4), (0, [70, 1, 70, 0, 0, 0]));
    assert_eq!(billed(&mut service, 1), (0, [70, 3, 70, 0, 0, 0]));
    assert_eq!(service, [4, 4, 0, 7, 0, 0, 0, 0, 3, 1, 0, 1, 0, 0, 0, 0]);
    // An error with the right: the number stays, and is told.
    let mut answer = [9; 6];
    assert_eq!(serve_bill(&mut service, 1, &[], &TARIFF, &mut answer), 30);
    assert_eq!((answer, service[8]), ([0, 3, 0, 0, 0, 0], 3));
    assert_eq!(serve_bill(&mut service, 1, &SMALL, &TARIFF, &mut answer[..5]), 1);
    assert_eq!((answer, service[8]), ([0, 3, 0, 0, 0, 0], 3));
}

#[test]
fn the_end_of_a_number_is_its_callers() {
    let mut service = opened(&[4; 8]);
    service[9] = u32::MAX;
    service[10] = u32::MAX - 1;
    assert_eq!(billed(&mut service, 2), (31, [0, u32::MAX, 0, 0, 0, 0]));
    assert_eq!(billed(&mut service, 1).0, 0);
    assert_eq!(billed(&mut service, 3), (0, [70, u32::MAX, 70, 0, 0, 0]));
    assert_eq!(billed(&mut service, 3), (31, [0, u32::MAX, 0, 0, 0, 0]));
    assert_eq!(service[8..12], [1, u32::MAX, u32::MAX, 0]);
}

#[test]
fn services_that_are_too_short() {
    let full = opened(&[ALL; 8]);
    assert_eq!(serve_check(&full[..3], 3, &SMALL, &mut [0; 22]), 0);
    assert_eq!(serve_check(&full[..3], 4, &SMALL, &mut [0; 22]), 36);
    assert_eq!(serve_check(&[], 1, &SMALL, &mut [0; 22]), 36);
    assert_eq!(serve_check(&[], 9, &SMALL, &mut [0; 22]), 35);
    let mut part = full;
    assert_eq!(billed(&mut part[..8], 8), (1, [9; 6]));
    assert_eq!(billed(&mut part[..10], 3), (1, [9; 6]));
    assert_eq!(billed(&mut part[..7], 8), (36, [0; 6]));
    assert_eq!(part, full);
    assert_eq!(billed(&mut part[..10], 2), (0, [70, 1, 70, 0, 0, 0]));
}

#[test]
fn calls_in_a_row() {
    let image: Rc<[u8]> = SMALL.into();
    let check = Request::Check { image: image.clone(), room: 22 };
    let trim = Request::Trim { image: image.clone(), room: 60 };
    let bill = Request::Bill { image, tariff: TARIFF, room: 6 };
    let mut service = opened(&[1, 4]);
    let mut codes = Vec::new();
    for (caller, request) in [(1, &check), (1, &trim), (1, &bill), (2, &check), (2, &bill)] {
        let mut lent = Lent { bytes: vec![9; 64], written: 9, bill: vec![9; 7], replay: vec![9] };
        let call = Call { caller, request: request.clone() };
        let code = serve(&mut service, &call, &mut lent);
        codes.push((code, lent.bytes[0], lent.bytes[63], lent.written, lent.bill));
    }
    let untouched = vec![9; 7];
    let (refused, told) = (vec![0, 0, 0, 0, 0, 0, 9], vec![70, 1, 70, 0, 0, 0, 9]);
    let expected = [
        (0, 20, 9, 9, untouched.clone()),
        (0, 7, 9, 50, untouched.clone()),
        (36, 9, 9, 9, refused),
        (36, 9, 9, 9, untouched),
        (0, 9, 9, 9, told),
    ];
    assert_eq!(codes, expected);
}

#[test]
fn replays_in_a_row() {
    let (image, new): (Rc<[u8]>, Rc<[u8]>) = (SMALL.into(), with_line().into());
    let rooms = Rooms { table: 15, answer: 22 };
    let replay = Request::Replay { image: image.clone(), trace: vec![1], given: Vec::new(), rooms };
    let none = Vec::new;
    let (first, second, given) = (none(), vec![2, 0], none());
    let update = Update { old: image, new, points: STAY.to_vec(), first, second, given };
    let across = Request::ReplayHandover { across: Box::new(update.clone()), rooms };
    let Update { old, new, points, .. } = update;
    let handover = Request::Handover { old, new, points };
    let mut service = opened(&[2, 1]);
    let mut served = |caller: usize, request: &Request| {
        let mut lent = Lent { bytes: vec![9; 20], written: 9, bill: vec![9], replay: vec![9; 23] };
        let code = serve(&mut service, &Call { caller, request: request.clone() }, &mut lent);
        assert_eq!((lent.written, &lent.bill[..], lent.replay[22]), (9, &[9][..], 9));
        (code, lent.bytes, lent.replay[0])
    };
    let written = [&START[..], &[9; 9]].concat();
    assert_eq!(served(1, &replay), (27, written.clone(), 0));
    assert_eq!(served(1, &across), (27, written, 0));
    assert_eq!(served(1, &handover), (36, vec![9; 20], 9));
    assert_eq!(served(2, &replay), (36, vec![9; 20], 0));
    assert_eq!(served(2, &across), (36, vec![9; 20], 0));
    assert_eq!(served(2, &handover), (0, vec![9; 20], 9));
}
