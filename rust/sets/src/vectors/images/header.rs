//! Codes 5 and 6 in the header.

use super::{Case, Draft};
use crate::vectors::tour::Spare;
use reference::checker::frames::{FORMULA, HEADER, THREAD};

pub fn cases() -> Vec<Case> {
    [lengths(), ranges(), marks()].concat()
}

fn lengths() -> Vec<Case> {
    let put = |label: &str, body: &[u8]| Draft::new().put(HEADER, 0, body).case(label);
    let sound = Draft::new().body(HEADER, 0).clone();
    let most = |bytes: usize| [&[2, 255, 255, 8][..], &vec![1; bytes]].concat();
    vec![
        put("5: header without bytes", &[]),
        put("5: header of 1 byte", &[2]),
        put("5: header of 2 bytes", &[2, 2]),
        put("5: header of 3 bytes, no words, no registers", &[2, 0, 0]),
        put("5: header of 4 bytes, counts as written want more", &[2, 2, 3, 8]),
        put("5: header without its last mark", &sound[..sound.len() - 1]),
        put("5: header without its marks", &sound[..sound.len() - 4]),
        put("5: header without its last owner", &[&sound[..9], &sound[10..]].concat()),
        put("5: header with a byte too many", &[&sound[..], &[1]].concat()),
        put("6: header with no words, length as written", &[2, 0, 3, 8, 1, 2, 1, 1, 1, 1]),
        put("6: header with 9 words, length as written", &[&[2, 9, 0, 8][..], &[0; 9]].concat()),
        put("6: header with 17 registers", &[&[2, 1, 17, 8, 0][..], &[1; 34]].concat()),
        put("6: header with 255 words and 255 registers", &most(765)),
        put("5: header with 255 words and a byte too few", &most(764)),
        put("6: header of 4 bytes, no words, no registers", &[2, 0, 0, 8]),
        put("6: header with no threads", &[0, 1, 0, 8, 0]),
    ]
}

fn ranges() -> Vec<Case> {
    let set = |label: String, place: usize, byte: u8| {
        Draft::new().set(HEADER, 0, place, byte).case(label)
    };
    let mut cases = Vec::new();
    for threads in [0, 1, 3, 4, 5, 255] {
        cases.push(set(format!("6: header with {threads} threads, 2 records"), 0, threads));
    }
    for (place, name) in [(4, "first start value"), (5, "last start value")] {
        for value in [8, 255] {
            cases.push(set(format!("6: {name} {value}"), place, value));
        }
    }
    for (place, name) in [(6, "first owner"), (7, "middle owner"), (9, "last owner")] {
        for owner in [0, 3, 255] {
            cases.push(set(format!("6: {name} {owner}"), place, owner));
        }
    }
    cases.push(set("accepted: greatest start value".into(), 4, 7));
    cases.push(fewer_threads());
    cases.extend(value_ranges());
    cases
}

/// The range itself, and start values up to it. The tour's start values are 0 and 7, its constants 0 and 1.
fn value_ranges() -> Vec<Case> {
    let with = |range, first, last| {
        Draft::new().set(HEADER, 0, 3, range).set(HEADER, 0, 4, first).set(HEADER, 0, 5, last)
    };
    let spare = usize::from(Draft::new().spare(Spare::Value)) - 1;
    let mut cases = Vec::new();
    for range in [0, 1, 17, 18, 255] {
        cases.push(with(range, 0, 0).case(format!("6: range {range}")));
    }
    for range in 2..=16 {
        let last = range - 1;
        cases.push(with(range, last, 0).case(format!("accepted: range {range}, first at {last}")));
        cases.push(with(range, 0, last).case(format!("accepted: range {range}, last at {last}")));
        cases.push(with(range, range, 0).case(format!("6: range {range}, first at {range}")));
        cases.push(with(range, 0, range).case(format!("6: range {range}, last at {range}")));
        let constant = |number: u8| with(range, 0, 0).put(FORMULA, spare, &[0, number]);
        cases.push(constant(last).case(format!("accepted: constant {last}, range {range}")));
        cases.push(constant(range).case(format!("6: constant {range}, range {range}")));
    }
    cases
}

/// Marks stand behind all owners, which are 1, 2, 1, 2 in the tour.
fn marks() -> Vec<Case> {
    let mark = |place: usize, mark: u8| Draft::new().set(HEADER, 0, 10 + place, mark);
    let mut cases = Vec::new();
    for place in 0..4 {
        let register = place + 1;
        for value in [2, 3, 255] {
            cases.push(mark(place, value).case(format!("6: register {register} has mark {value}")));
        }
        cases.push(mark(place, 0).case(format!("accepted: register {register} has mark 0")));
    }
    let mut open = Draft::new();
    open.body(HEADER, 0)[10..].fill(0);
    cases.push(open.case("accepted: every register has mark 0"));
    let mut exchanged = Draft::new();
    exchanged.body(HEADER, 0)[6..].rotate_left(4);
    cases.push(exchanged.case("6: marks before owners"));
    let taken_by_turns = [1, 1, 2, 1, 1, 1, 2, 1];
    let mut mixed = Draft::new();
    mixed.body(HEADER, 0)[6..].copy_from_slice(&taken_by_turns);
    cases.push(mixed.case("6: owner and mark of each register by turns"));
    cases.push(mark(0, 2).set(HEADER, 0, 0, 3).case("6: a mark and the thread count"));
    cases.push(mark(3, 2).append(HEADER, 0, &[0]).case("5: a mark of 2 and a byte too many"));
    cases
}

/// The header has two threads, there is one thread record.
fn fewer_threads() -> Case {
    let mut draft = Draft::new();
    let second = draft.index(THREAD, 1);
    draft.records.remove(second);
    draft.case("6: header with 2 threads, 1 record")
}
