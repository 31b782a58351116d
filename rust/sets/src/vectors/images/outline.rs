//! Codes 5, 6 and 8 in the outline.

use super::{Case, Draft};
use crate::vectors::tour::Spare;
use reference::checker::frames::{FORMULA, OUTLINE};

pub fn cases() -> Vec<Case> {
    let draft = Draft::new();
    let formulas = draft.count(FORMULA) as u16;
    let mut cases = vec![
        Draft::new().put(OUTLINE, 0, &[]).case("5: outline without bytes"),
        Draft::new().shorten(OUTLINE, 0, 1).case("5: outline a byte too short"),
        Draft::new().shorten(OUTLINE, 0, 2).case("5: outline a number too short"),
        Draft::new().append(OUTLINE, 0, &[1]).case("5: outline a byte too long"),
        Draft::new().append(OUTLINE, 0, &[1, 0]).case("5: outline a number too long"),
    ];
    for (name, point) in [("first", 0), ("middle", 5), ("last", 17)] {
        let with = |number| Draft::new().set_number(OUTLINE, 0, 2 * point, number);
        for number in [0, formulas + 1, 0xffff] {
            cases.push(with(number).case(format!("6: {name} outline number {number}")));
        }
        for (sort, which) in [
            ("a value", Spare::Value),
            ("a test", Spare::Test),
            ("an interval", Spare::Interval),
            ("an assertion with start", Spare::HiddenStart),
        ] {
            let number = draft.spare(which);
            cases.push(with(number).case(format!("8: {name} outline formula is {sort}")));
        }
        cases.push(
            with(draft.formula_number(&[27])).case(format!("8: {name} outline formula is start")),
        );
    }
    cases
}
