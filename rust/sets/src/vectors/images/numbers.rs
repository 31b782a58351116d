//! Numbers of formulas and lines above 255, where both bytes count, and the highest that there may be.

use super::{Case, Draft};
use crate::vectors::tour::place_of;
use reference::checker::frames::{CLAIM, FORMULA, LINE, OBLIGATIONS, OUTLINE, THREAD};
use reference::checker::limits::{FORMULAS, LINES};
use reference::image::written::Record;

/// The number under test; formula 1 and line 1 are others.
const HIGH: usize = 257;

pub fn cases() -> Vec<Case> {
    let n = Draft::new().line_of_rule(1);
    let places = [
        ("left formula", LINE, n, 3),
        ("right formula", LINE, n, 5),
        ("formula of the outline", OUTLINE, 0, 0),
        ("formula of a branch", THREAD, 0, 1 + 5 * 6 + 3),
        ("formula of a pair", THREAD, 1, place_of(9).1 + 3),
        ("formula of a pair's second half", THREAD, 1, place_of(9).1 + 8),
    ];
    let mut cases = vec![
        high_lines().case("accepted: premise 257, obligation with line 258"),
        high_claim(HIGH).case("accepted: claim with line 257"),
        high_claim(LINES).case("accepted: claim with line 4,000"),
        high_claim(LINES)
            .set_number(CLAIM, 0, 4, LINES as u16 + 1)
            .case("6: claim with line 4,001"),
    ];
    for (what, kind, n, place) in places {
        for number in [HIGH, FORMULAS] {
            let label = format!("accepted: {what} has number {number}");
            cases.push(moved(number, kind, n, place).case(label));
        }
        let beyond =
            moved(FORMULAS, kind, n, place).set_number(kind, n, place, FORMULAS as u16 + 1);
        cases.push(beyond.case(format!("6: {what} has number 501")));
    }
    cases
}

/// The number at a place of a body.
fn number(draft: &Draft, kind: u16, n: usize, place: usize) -> u16 {
    let body = &draft.records[draft.index(kind, n)].body;
    u16::from_le_bytes([body[place], body[place + 1]])
}

/// Records of a kind behind the last one, so that there are so many.
fn filled(mut draft: Draft, filler: Record, count: usize) -> Draft {
    let present = draft.count(filler.kind);
    let last = draft.index(filler.kind, present - 1);
    draft.records.splice(last + 1..last + 1, vec![filler; count - present]);
    draft
}

/// The tour with so many formulas, in which the one that is named at a place is the last.
fn moved(count: usize, kind: u16, n: usize, place: usize) -> Draft {
    let mut draft = filled(Draft::new(), Record::new(FORMULA, [8]), count);
    let own = usize::from(number(&draft, kind, n, place));
    let bytes = draft.body(FORMULA, own - 1).clone();
    draft.put(FORMULA, count - 1, &bytes).set_number(kind, n, place, count as u16)
}

/// The tour with so many lines, of which a claim has the last.
fn high_claim(count: usize) -> Draft {
    let mut draft = Draft::new();
    let line = usize::from(number(&draft, CLAIM, 0, 4));
    let line = Record::new(LINE, draft.body(LINE, line - 1).clone());
    filled(draft, line, count).set_number(CLAIM, 0, 4, count as u16)
}

/// The tour in which the last obligation has line 258, whose second premise is 257.
fn high_lines() -> Draft {
    let mut draft = Draft::new();
    let last = draft.body(OBLIGATIONS, 0).len() - 2;
    let line = usize::from(number(&draft, OBLIGATIONS, 0, last));
    let line = draft.body(LINE, line - 1).clone();
    assert_eq!((line[0], line[7]), (16, 3), "the last obligation rests on a triple");
    let middle = usize::from(u16::from_le_bytes([line[10], line[11]]));
    let middle = Record::new(LINE, draft.body(LINE, middle - 1).clone());
    draft = filled(draft, middle, HIGH);
    draft = filled(draft, Record::new(LINE, line), HIGH + 1);
    draft.set_number(LINE, HIGH, 10, HIGH as u16).set_number(OBLIGATIONS, 0, last, HIGH as u16 + 1)
}
