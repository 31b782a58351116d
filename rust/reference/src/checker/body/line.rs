//! A certificate line: rule, place, two formulas, premises.

use super::outline::startless_assertion;
use super::{demand, formula_numbered, Read, LENGTH, RANGE, SORT};
use crate::checker::rules::{Form, Rules, MOST_PREMISES};
use crate::formula::Formula;
use crate::image::{written, Line, Statement, Thread};

/// Reads the line with this number, counted from 1, by one of these rules.
pub fn read(
    body: &[u8],
    number: usize,
    rules: Rules,
    threads: &[Thread],
    formulas: &[Formula],
) -> Read<Line> {
    let written::Line { rule, thread, point, left, right, premises } =
        written::Line::read(body).ok_or(LENGTH)?;

    let form = rules.form(rule).ok_or(RANGE)?;
    demand(place_fits(form, thread, point, threads), RANGE)?;
    let left = formula_numbered(formulas, left)?;
    let right = formula_numbered(formulas, right)?;
    demand(premises.len() <= MOST_PREMISES, RANGE)?;
    demand(premises.iter().all(|&premise| premise != 0 && usize::from(premise) < number), RANGE)?;

    let statement = match form {
        Form::Triple => Statement::Triple {
            thread,
            point,
            left: startless_assertion(left)?,
            right: startless_assertion(right)?,
        },
        Form::Implication => {
            let assertion = |formula: &Formula| formula.assertion().ok_or(SORT);
            Statement::Implication { left: assertion(left)?, right: assertion(right)? }
        }
        Form::Inclusion => {
            let interval = |formula: &Formula| formula.interval().ok_or(SORT);
            Statement::Inclusion { left: interval(left)?, right: interval(right)? }
        }
    };
    Ok(Line { rule, statement, premises })
}

/// A triple names an instruction that is no branch; other lines name no place.
fn place_fits(form: Form, thread: u8, point: u8, threads: &[Thread]) -> bool {
    if form != Form::Triple {
        return thread == 0 && point == 0;
    }
    let code = usize::from(thread).checked_sub(1).and_then(|index| threads.get(index));
    let instruction = code.and_then(|code| code.get(usize::from(point)));
    instruction.is_some_and(|instruction| !instruction.is_branch())
}
