//! Codes 5 to 7 in formula records.

use super::{Case, Draft};
use crate::vectors::formulas::long_formula;
use reference::checker::frames::FORMULA;

pub fn cases() -> Vec<Case> {
    let last = Draft::new().count(FORMULA) - 1;
    let mut cases = Vec::new();
    for (name, n) in [("first", 0), ("middle", last / 2), ("last", last)] {
        let put = |label: &str, body: &[u8]| {
            Draft::new().put(FORMULA, n, body).case(format!("{label}, {name} formula"))
        };
        cases.push(put("5: 0 bytes", &[]));
        cases.push(put("5: 256 bytes", &long_formula(256)));
        cases.push(put("5: 256 bytes, unknown code", &[7; 256]));
        cases.push(put("5: 512 bytes", &[8; 512]));
        cases.push(put("6: register 5", &[1, 5]));
        cases.push(put("6: word 3", &[17, 3]));
        cases.push(put("6: thread 3", &[24, 3, 17, 1]));
        cases.push(put("6: constant 8", &[0, 8]));
        cases.push(put("7: unknown code", &[21]));
        cases.push(put("7: left over", &[8, 8]));
        cases.push(put("7: cut short", &[12, 8]));
        cases.push(put("7: code unfit at its place", &[16, 17, 1]));
        cases.push(put("7: nesting 17", &[&[11; 16][..], &[8]].concat()));
    }
    cases
}
