//! Codes 5, 6 and 8 in lines.

use super::{Case, Draft};
use crate::vectors::tour::Spare;
use reference::checker::frames::{FORMULA, LINE};

pub fn cases() -> Vec<Case> {
    [numbers(), places(), sorts()].concat()
}

/// A line of each form in the tour: rules 1, 20 and 39.
const LINES: [(&str, u8); 3] = [("triple", 1), ("implication", 20), ("inclusion", 39)];

fn numbers() -> Vec<Case> {
    let formulas = Draft::new().count(FORMULA) as u16;
    let mut cases = Vec::new();
    for (form, rule) in LINES {
        let n = Draft::new().line_of_rule(rule);
        let set = |place, byte| Draft::new().set(LINE, n, place, byte);
        let set_number = |place, number| Draft::new().set_number(LINE, n, place, number);
        for other in [0, 17, 19, 28, 29, 51, 52, 255] {
            cases.push(set(0, other).case(format!("6: {form} with rule {other}")));
        }
        for (side, place) in [("left", 3), ("right", 5)] {
            for number in [0, formulas + 1, 0xffff] {
                let label = format!("6: {form} with {side} formula {number}");
                cases.push(set_number(place, number).case(label));
            }
        }
        cases.extend(premises(form, n));
    }
    for (name, n) in [("first", 0), ("last", Draft::new().count(LINE) - 1)] {
        cases.push(Draft::new().set(LINE, n, 0, 18).case(format!("6: rule 18 in the {name} line")));
        cases.push(Draft::new().put(LINE, n, &[]).case(format!("5: {name} line without bytes")));
    }
    cases
}

fn premises(form: &str, n: usize) -> Vec<Case> {
    let own = n as u16 + 1;
    let fixed = Draft::new().body(LINE, n)[..7].to_vec();
    let put = |label: String, count: u8, premises: &[u16]| {
        let numbers: Vec<u8> = premises.iter().flat_map(|number| number.to_le_bytes()).collect();
        let body = [&fixed[..], &[count], &numbers].concat();
        Draft::new().put(LINE, n, &body).case(label)
    };
    let lower = own.saturating_sub(1);
    vec![
        Draft::new().put(LINE, n, &fixed).case(format!("5: {form} of 7 bytes")),
        put(format!("5: {form} with 1 premise, none written"), 1, &[]),
        put(format!("5: {form} with no premise, one written"), 0, &[lower]),
        put(format!("5: {form} with 4 premises, 5 written"), 4, &[lower; 5]),
        put(format!("5: {form} with 5 premises, 4 written"), 5, &[lower; 4]),
        put(format!("6: {form} with 5 premises"), 5, &[lower; 5]),
        put(format!("6: {form} with 255 premises"), 255, &[lower; 255]),
        put(format!("6: {form} with premise 0"), 1, &[0]),
        put(format!("6: {form} that rests on itself"), 1, &[own]),
        put(format!("6: {form} that rests on a later line"), 1, &[own + 1]),
        put(format!("6: {form} whose last premise is 0"), 4, &[lower, lower, lower, 0]),
        put(format!("6: {form} with premise 65,535"), 2, &[lower, 0xffff]),
        put(format!("premise count of no rule: {form} with 4 lower premises"), 4, &[lower; 4]),
    ]
}

fn places() -> Vec<Case> {
    let mut cases = Vec::new();
    for (form, rule) in LINES {
        let n = Draft::new().line_of_rule(rule);
        for (thread, point) in [
            (0, 0),
            (0, 1),
            (1, 0),
            (1, 5),
            (1, 6),
            (1, 7),
            (1, 8),
            (2, 1),
            (2, 2),
            (2, 4),
            (2, 7),
            (2, 8),
            (2, 9),
            (2, 10),
            (3, 0),
            (255, 255),
        ] {
            let draft = Draft::new().set(LINE, n, 1, thread).set(LINE, n, 2, point);
            cases.push(
                draft.case(format!("place of a line: {form} for thread {thread}, point {point}")),
            );
        }
    }
    cases
}

fn sorts() -> Vec<Case> {
    let draft = Draft::new();
    let mut cases = Vec::new();
    for (form, rule) in LINES {
        let n = draft.line_of_rule(rule);
        for (side, place) in [("left", 3), ("right", 5)] {
            for (sort, number) in [
                ("a value", draft.spare(Spare::Value)),
                ("a test", draft.spare(Spare::Test)),
                ("an interval", draft.spare(Spare::Interval)),
                ("start", draft.formula_number(&[27])),
                ("an assertion with start", draft.spare(Spare::HiddenStart)),
                ("an assertion", draft.formula_number(&[28, 11, 8])),
            ] {
                let changed = Draft::new().set_number(LINE, n, place, number);
                cases.push(changed.case(format!("sort in a line: {side} of {form} is {sort}")));
            }
        }
    }
    cases
}
