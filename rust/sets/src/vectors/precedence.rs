//! Two faults at once: places in table order, records first to last, and within
//! a record the lowest code.

use super::edits::Draft;
use super::tour::Spare;
use super::Case;
use reference::checker::frames::{CLAIM, FORMULA, HEADER, LINE, OBLIGATIONS, OUTLINE, THREAD};

/// A fault that can be added to the tour image, and its place.
struct Fault {
    name: &'static str,
    /// The kind and number of the record it is in.
    record: (u16, usize),
    /// Puts the fault in.
    add: fn(Draft) -> Draft,
}

/// Faults of different codes in different records.
fn faults() -> Vec<Fault> {
    let fault = |name, record, add| Fault { name, record, add };
    vec![
        fault("5 in the header", (HEADER, 0), |d| d.append(HEADER, 0, &[0])),
        fault("6 in the header", (HEADER, 0), |d| d.set(HEADER, 0, 4, 9)),
        fault("5 in a formula", (FORMULA, 3), |d| d.put(FORMULA, 3, &[])),
        fault("6 in a formula", (FORMULA, 4), |d| d.put(FORMULA, 4, &[0, 8])),
        fault("7 in a formula", (FORMULA, 5), |d| d.put(FORMULA, 5, &[5])),
        fault("5 in a thread", (THREAD, 0), |d| d.append(THREAD, 0, &[0])),
        fault("6 in a thread", (THREAD, 1), |d| d.set(THREAD, 1, 1, 13)),
        fault("8 in a thread", (THREAD, 0), |d| {
            let number = d.spare(Spare::Test);
            d.set_number(THREAD, 0, 4, number)
        }),
        fault("9 in a thread", (THREAD, 0), |d| d.set(THREAD, 0, 12, 2)),
        fault("23 in a thread", (THREAD, 1), |d| d.set(THREAD, 1, 13, 4)),
        fault("5 in the outline", (OUTLINE, 0), |d| d.append(OUTLINE, 0, &[0])),
        fault("6 in the outline", (OUTLINE, 0), |d| d.set_number(OUTLINE, 0, 2, 0)),
        fault("8 in the outline", (OUTLINE, 0), |d| {
            let number = d.spare(Spare::Test);
            d.set_number(OUTLINE, 0, 6, number)
        }),
        fault("5 in a line", (LINE, 4), |d| d.append(LINE, 4, &[0])),
        fault("6 in a line", (LINE, 5), |d| d.set(LINE, 5, 0, 17)),
        fault("8 in a line", (LINE, 5), |d| {
            let number = d.spare(Spare::Test);
            d.set_number(LINE, 5, 3, number)
        }),
        fault("5 in the obligations", (OBLIGATIONS, 0), |d| d.append(OBLIGATIONS, 0, &[0])),
        fault("6 in the obligations", (OBLIGATIONS, 0), |d| d.set_number(OBLIGATIONS, 0, 0, 999)),
        fault("5 in a claim", (CLAIM, 0), |d| d.append(CLAIM, 0, &[0])),
        fault("6 in a claim", (CLAIM, 1), |d| d.set(CLAIM, 1, 2, 2)),
        fault("20 at an obligation", (OBLIGATIONS, 0), |d| d.set_number(OBLIGATIONS, 0, 4, 0)),
        fault("26 at a claim", (CLAIM, 1), |d| d.set_number(CLAIM, 1, 4, 0)),
    ]
}

/// All cases of two faults at once.
pub fn cases() -> Vec<Case> {
    let mut cases = pairs();
    cases.extend(with_frame_faults());
    cases.extend(between_frames());
    cases.extend(within_thread());
    cases.extend(after_owners());
    cases.extend(within_outline());
    cases.extend(within_line());
    cases.extend(within_formula());
    cases
}

/// Every fault alone and every pair of faults.
fn pairs() -> Vec<Case> {
    let faults = faults();
    let mut cases = Vec::new();
    for (index, first) in faults.iter().enumerate() {
        cases.push((first.add)(Draft::new()).case(format!("one fault: {}", first.name)));
        for second in &faults[index + 1..] {
            let draft = (second.add)((first.add)(Draft::new()));
            cases.push(draft.case(format!("two faults: {}, {}", first.name, second.name)));
        }
    }
    cases
}

/// A frame fault behind or before any other fault comes first.
fn with_frame_faults() -> Vec<Case> {
    let mut cases = Vec::new();
    for fault in faults() {
        let draft = (fault.add)(Draft::new());
        let stray = [&draft.bytes()[..], &[0]].concat();
        cases.push(Case::new(format!("3 at the end before {}", fault.name), stray));
        let mut doubled = draft.clone();
        doubled.records.push(draft.records[draft.index(OBLIGATIONS, 0)].clone());
        cases.push(doubled.case(format!("4 at the end before {}", fault.name)));
        let mut open = draft.clone();
        open.records.truncate(draft.index(OBLIGATIONS, 0));
        cases.push(open.case(format!("4, obligations missing, before {}", fault.name)));
        let mut own = draft.clone();
        let index = draft.index(fault.record.0, fault.record.1);
        own.records[index].kind = 9;
        cases.push(own.case(format!("4 in the same record before {}", fault.name)));
    }
    cases
}

/// Two frame faults: the first record counts; in one record 3 before 4.
fn between_frames() -> Vec<Case> {
    let mut cases = Vec::new();
    let unknown = |index: usize| {
        let mut draft = Draft::new();
        draft.records[index].kind = 9;
        draft
    };
    let last = Draft::new().records.len() - 1;
    for index in [0, 5, last] {
        let number = index + 1;
        let bytes = unknown(index).bytes();
        let label = format!("4 at record {number} before 3 behind the last");
        cases.push(Case::new(label, [&bytes[..], &[1]].concat()));
        let start: usize =
            Draft::new().records[..index].iter().map(|record| record.body.len() + 4).sum();
        for length in [0_u16, 1, 0xffff] {
            let mut both = bytes.clone();
            both[start..start + 2].copy_from_slice(&length.to_le_bytes());
            let label = format!("3 before 4 in record {number}, length {length}");
            cases.push(Case::new(label, both));
        }
        let mut two = unknown(index);
        two.records[last].kind = 0;
        cases.push(two.case(format!("4 at record {number} before 4 at the last")));
    }
    let mut bytes = unknown(5).bytes();
    bytes[0] = 1;
    cases.push(Case::new("3 at record 1 before 4 at record 6", bytes));
    cases
}

/// Two faults in thread 1, in either order of the instructions.
fn within_thread() -> Vec<Case> {
    let formula = |d: Draft, point: usize, which: Spare| {
        let number = d.spare(which);
        d.set_number(THREAD, 0, 1 + 5 * point + 3, number)
    };
    let field = |d: Draft, point: usize, byte: u8| d.set(THREAD, 0, 1 + 5 * point + 1, byte);
    let new = Draft::new;
    vec![
        field(formula(new(), 0, Spare::Test), 3, 9).case("6 before 8: sort first, word later"),
        formula(field(new(), 0, 9), 3, Spare::Test).case("6 before 8: register first, sort later"),
        field(field(new(), 1, 2), 3, 9).case("6 before 9: owner first, word later"),
        field(field(new(), 0, 9), 1, 2).case("6 before 9: register first, owner later"),
        formula(field(new(), 1, 2), 3, Spare::Test).case("8 before 9: owner first, sort later"),
        field(formula(new(), 0, Spare::Word), 2, 2).case("8 before 9: word first, owner later"),
        formula(field(new(), 0, 2), 0, Spare::Word).case("8 before 9 in one instruction"),
        formula(field(new(), 0, 9), 0, Spare::Word).case("6 before 8 in one instruction"),
        field(new(), 0, 2).append(THREAD, 0, &[0]).case("5 before 9 in one thread"),
        formula(new(), 0, Spare::Test).append(THREAD, 0, &[0]).case("5 before 8 in one thread"),
        field(new(), 0, 9).shorten(THREAD, 0, 5).case("5 before 6 in one thread"),
        field(new(), 0, 2).set(THREAD, 1, 1, 13).case("9 in thread 1 before 6 in thread 2"),
        formula(new(), 5, Spare::Test)
            .shorten(THREAD, 1, 1)
            .case("8 in thread 1 before 5 in thread 2"),
    ]
}

/// In thread 2, whose instruction at point 2 names its result register: 23 comes last within the
/// record and before all that follows.
fn after_owners() -> Vec<Case> {
    let new = || Draft::new().set(THREAD, 1, 13, 4);
    let sort = |d: Draft, point: usize| {
        let number = d.spare(Spare::Test);
        d.set_number(THREAD, 1, 1 + 5 * point + 3, number)
    };
    let foreign = {
        let d = Draft::new();
        let number = d.formula_number(&[1, 1]);
        d.set(THREAD, 1, 13, 1).set_number(THREAD, 1, 14, number)
    };
    let in_first = || Draft::new().set(THREAD, 0, 26, 7).set(THREAD, 0, 28, 3);
    vec![
        new().append(THREAD, 1, &[0]).case("5 before 23 in one thread"),
        new().set(THREAD, 1, 1, 13).case("6 before 23: operation first"),
        new().set(THREAD, 1, 17, 3).case("6 before 23: word later"),
        sort(new(), 1).set(THREAD, 1, 16, 13).case("6 before 8: sort first, operation 13 later"),
        sort(new(), 1).set_number(THREAD, 1, 19, 0).case("6 before 8: sort first, formula 0 later"),
        sort(new(), 1).case("8 before 23: sort first"),
        sort(new(), 3).case("8 before 23: sort later"),
        new().set(THREAD, 1, 2, 1).case("9 before 23: owner first"),
        new().set(THREAD, 1, 18, 1).case("9 before 23: owner later"),
        foreign.case("9 before 23 in one instruction: another thread's register on both sides"),
        in_first().set(THREAD, 1, 1, 13).case("23 in thread 1 before 6 in thread 2"),
        in_first().append(THREAD, 1, &[0]).case("23 in thread 1 before 5 in thread 2"),
        new().set_number(OUTLINE, 0, 0, 0).case("23 in a thread before 6 in the outline"),
        new().set_number(OBLIGATIONS, 0, 0, 0).case("23 in a thread before 20"),
    ]
}

fn within_outline() -> Vec<Case> {
    let sort = |d: Draft, point: usize| {
        let number = d.spare(Spare::Interval);
        d.set_number(OUTLINE, 0, 2 * point, number)
    };
    let absent = |d: Draft, point: usize| d.set_number(OUTLINE, 0, 2 * point, 0);
    vec![
        absent(sort(Draft::new(), 1), 8).case("6 before 8: sort first in the outline"),
        sort(absent(Draft::new(), 1), 8).case("6 before 8: number first in the outline"),
        sort(Draft::new(), 1).append(OUTLINE, 0, &[0]).case("5 before 8 in the outline"),
    ]
}

fn within_line() -> Vec<Case> {
    let n = Draft::new().line_of_rule(20);
    let sort = |d: Draft| {
        let number = d.spare(Spare::Interval);
        d.set_number(LINE, n, 3, number)
    };
    let new = Draft::new;
    vec![
        sort(new()).set(LINE, n, 1, 1).case("6 before 8: thread in an implication"),
        sort(new()).set_number(LINE, n, 5, 0).case("6 before 8: right formula 0"),
        sort(new()).set(LINE, n, 0, 17).case("6 before 8: rule 17"),
        sort(new()).append(LINE, n, &[0]).case("5 before 8 in a line"),
        new().set(LINE, n, 0, 17).append(LINE, n, &[0]).case("5 before 6 in a line"),
        sort(new()).set(LINE, n + 1, 0, 17).case("8 in a line before 6 in the next"),
        new()
            .set(LINE, n, 0, 17)
            .append(LINE, n + 1, &[0])
            .case("6 in a line before 5 in the next"),
    ]
}

fn within_formula() -> Vec<Case> {
    let put = |n: usize, body: &[u8]| Draft::new().put(FORMULA, n, body);
    vec![
        put(2, &[3, 0, 8, 5]).case("6 before 7 from the left in a formula"),
        put(2, &[3, 5, 0, 8]).case("7 before 6 from the left in a formula"),
        put(2, &[5; 256]).case("5 before 7 in a formula"),
        put(2, &[0; 256]).case("5 before 7, left over, in a formula"),
        put(2, &[5]).put(FORMULA, 3, &[0, 8]).case("7 in a formula before 6 in the next"),
        put(2, &[0, 8]).put(FORMULA, 3, &[]).case("6 in a formula before 5 in the next"),
        put(2, &[5]).set(THREAD, 0, 1, 13).case("7 in a formula before 6 in a thread"),
    ]
}
