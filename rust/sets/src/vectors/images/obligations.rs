//! Codes 5, 6, 20 and 21 in the obligations record.

use super::{Case, Draft};
use reference::checker::frames::{LINE, OBLIGATIONS};

pub fn cases() -> Vec<Case> {
    let lines = Draft::new().count(LINE) as u16;
    let last = Draft::new().body(OBLIGATIONS, 0).len() / 2 - 1;
    let mut cases = vec![
        Draft::new().put(OBLIGATIONS, 0, &[]).case("5: obligations without bytes"),
        Draft::new().shorten(OBLIGATIONS, 0, 1).case("5: obligations a byte too short"),
        Draft::new().shorten(OBLIGATIONS, 0, 2).case("5: obligations a number too short"),
        Draft::new().append(OBLIGATIONS, 0, &[1]).case("5: obligations a byte too long"),
        Draft::new().append(OBLIGATIONS, 0, &[1, 0]).case("5: obligations a number too long"),
    ];
    for index in 0..=last {
        let number = index + 1;
        let with = |line| Draft::new().set_number(OBLIGATIONS, 0, 2 * index, line);
        cases.push(with(0).case(format!("20: obligation {number} has no line")));
        cases.push(with(2).case(format!("21: obligation {number} has line 2")));
        if [0, last / 2, last].contains(&index) {
            for line in [lines, lines + 1, 0xffff] {
                cases.push(
                    with(line).case(format!("line number: obligation {number} has line {line}")),
                );
            }
        }
    }
    cases
}
