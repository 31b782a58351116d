//! Codes 4, 5 and 6 in claims.

use super::{Case, Draft};
use reference::checker::frames::{CLAIM, LINE, OBLIGATIONS};
use reference::checker::limits::CLAIMS;
use reference::image::written::Record;

pub fn cases() -> Vec<Case> {
    [counts(), bodies(), threads_and_points(), lines(), mixed()].concat()
}

/// The tour with so many claims, the first one again and again.
fn with_claims(count: usize) -> Draft {
    let mut draft = Draft::new();
    let claim = draft.records[draft.index(CLAIM, 0)].clone();
    draft.records.truncate(draft.index(OBLIGATIONS, 0) + 1);
    draft.records.extend(vec![claim; count]);
    draft
}

fn counts() -> Vec<Case> {
    let mut cases = Vec::new();
    for count in [0, 1, 2, 15, CLAIMS] {
        cases.push(with_claims(count).case(format!("accepted: {count} claims")));
    }
    for count in [CLAIMS + 1, CLAIMS + 2, 40] {
        cases.push(with_claims(count).case(format!("4: {count} claims")));
    }
    let claim = |draft: &Draft| draft.records[draft.index(CLAIM, 0)].clone();
    let mut before = Draft::new();
    let place = before.index(OBLIGATIONS, 0);
    let moved = claim(&before);
    before.records.insert(place, moved);
    cases.push(before.case("4: a claim before the obligations"));
    let mut first = Draft::new();
    let moved = claim(&first);
    first.records.insert(0, moved);
    cases.push(first.case("4: a claim before the header"));
    let mut between = with_claims(2);
    let again = between.records[between.index(OBLIGATIONS, 0)].clone();
    let last = between.records.len() - 1;
    between.records.insert(last, again);
    cases.push(between.case("4: obligations again between two claims"));
    let mut instead = Draft::new();
    let place = instead.index(OBLIGATIONS, 0);
    instead.records.remove(place);
    cases.push(instead.case("4: claims, and no obligations"));
    let mut high = Draft::new();
    let place = high.index(CLAIM, 0);
    high.records[place].kind = CLAIM + 256;
    cases.push(high.case("4: a claim of kind 264"));
    cases
}

/// Every length up to 8, and a long one.
fn bodies() -> Vec<Case> {
    let sound = Draft::new().body(CLAIM, 0).clone();
    let mut cases = Vec::new();
    for length in [0, 1, 2, 3, 4, 5, 7, 8, 255, 300] {
        let mut body = sound.clone();
        body.resize(length, 0);
        for (name, n) in [("first", 0), ("last", 1)] {
            let draft = Draft::new().put(CLAIM, n, &body);
            cases.push(draft.case(format!("5: {length} bytes in the {name} claim")));
        }
    }
    cases
}

/// The tour's first claim with other threads and points.
fn places(bytes: [u8; 4]) -> Draft {
    let mut draft = Draft::new();
    draft.body(CLAIM, 0)[..4].copy_from_slice(&bytes);
    draft
}

/// Thread 1 has 8 points, thread 2 has 10.
fn threads_and_points() -> Vec<Case> {
    let mut cases = Vec::new();
    for wrong in [0, 3, 4, 255] {
        let label = format!("6: thread {wrong} in a claim");
        cases.push(places([wrong, 0, 2, 9]).case(label));
        let label = format!("6: other thread {wrong} in a claim");
        cases.push(places([1, 0, wrong, 9]).case(label));
    }
    for thread in [1, 2] {
        for (point, other) in [(0, 0), (0, 1), (7, 0)] {
            let label = format!("6: thread {thread} twice in a claim, points {point} and {other}");
            cases.push(places([thread, point, thread, other]).case(label));
        }
    }
    for point in [8, 9, 255] {
        cases.push(places([1, point, 2, 9]).case(format!("6: point {point} of thread 1")));
        cases.push(places([2, 9, 1, point]).case(format!("6: other point {point} of thread 1")));
    }
    for point in [10, 11, 255] {
        cases.push(places([2, point, 1, 0]).case(format!("6: point {point} of thread 2")));
        cases.push(places([1, 0, 2, point]).case(format!("6: other point {point} of thread 2")));
    }
    for point in 0..8 {
        cases.push(places([1, point, 2, 9]).case(format!("accepted: point {point}, never 9")));
        cases.push(places([2, 9, 1, point]).case(format!("accepted: never 9, point {point}")));
    }
    for point in 0..9 {
        cases.push(places([1, 0, 2, point]).case(format!("26: points 0 and {point}")));
    }
    cases
}

fn lines() -> Vec<Case> {
    let lines = Draft::new().count(LINE) as u16;
    let with = |n: usize, line: u16| Draft::new().set_number(CLAIM, n, 4, line);
    let mut cases = Vec::new();
    for (name, n) in [("first", 0), ("last", 1)] {
        cases.push(with(n, 0).case(format!("26: no line in the {name} claim")));
        for line in [lines + 1, lines + 2, 0xffff] {
            cases.push(with(n, line).case(format!("6: line {line} in the {name} claim")));
        }
        for line in 1..=lines {
            cases.push(with(n, line).case(format!("line {line} in the {name} claim")));
        }
    }
    cases
}

/// Two faults: records first to last, frames before bodies, claims after obligations.
fn mixed() -> Vec<Case> {
    let new = Draft::new;
    let mut many = with_claims(CLAIMS + 1).set(CLAIM, 0, 0, 9);
    let frames = many.case("4 before 6: the 17th claim, a thread in the first");
    *many.body(CLAIM, CLAIMS) = Vec::new();
    vec![
        frames,
        many.case("4 before 5: the 17th claim has no bytes"),
        new().set(CLAIM, 0, 0, 9).append(CLAIM, 0, &[0]).case("5 before 6 in a claim"),
        new().set(CLAIM, 0, 0, 9).append(CLAIM, 1, &[0]).case("6 before 5 in the next claim"),
        new().append(CLAIM, 0, &[0]).set(CLAIM, 1, 0, 9).case("5 before 6 in the next claim"),
        new()
            .set_number(CLAIM, 0, 4, 0)
            .set(CLAIM, 1, 0, 9)
            .case("6 before 26 at the claim before"),
        new().set_number(CLAIM, 0, 4, 0).set_number(CLAIM, 1, 4, 0).case("26: both claims"),
        new().set(CLAIM, 0, 0, 9).set_number(OBLIGATIONS, 0, 0, 0).case("6 before 20: in a claim"),
        new().set_number(CLAIM, 0, 4, 0).set_number(OBLIGATIONS, 0, 0, 0).case("20 before 26"),
        new().set_number(CLAIM, 0, 4, 0).set_number(OBLIGATIONS, 0, 0, 2).case("21 before 26"),
        stray(),
    ]
}

fn stray() -> Case {
    let bytes = [&Draft::new().bytes()[..], &Record::new(CLAIM, []).bytes()[..3]].concat();
    Case::new("3: half a claim behind the claims", bytes)
}
