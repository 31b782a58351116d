//! The part `proof`: steps that the writer names.

use crate::search::prover::{implication, inclusion, At};
use crate::terms::*;
use crate::text::lex::{Mistake, Place};
use crate::text::parse_formula::Cursor;
use crate::text::parse_source::{braced, check_size};
use crate::text::source::{Hint, Middle, Source};

/// `step THREAD POINT: {P} to {Q}`, `fact {P} to {Q}`, `part I in J`, each perhaps with `by RULE`.
pub fn proof(c: &mut Cursor, source: &mut Source) -> Result<(), Mistake> {
    loop {
        let line = c.line();
        let statement = if c.take("step") {
            let name = c.name()?;
            let thread = c.scope.thread(&name, line)?;
            let at = At { thread, point: byte(c, "point")? };
            c.expect(":")?;
            let (left, right) = from_to(c)?;
            at.triple(&left, &right)
        } else if c.take("fact") {
            let (left, right) = from_to(c)?;
            implication(&left, &right)
        } else if c.take("part") {
            let left = c.interval()?;
            c.expect("in")?;
            inclusion(&left, &c.interval()?)
        } else {
            return Ok(());
        };
        let rule = if c.take("by") { Some(byte(c, "rule")?) } else { None };
        let middle = middle(c, rule)?;
        let (left, right) = statement.sides();
        check_size(&left, line)?;
        check_size(&right, line)?;
        check_middle(&middle, line)?;
        source.hints.push(Hint { statement, rule, middle, line });
    }
}

/// A number of a point or a rule. Which there are is found out later; here it must be a byte, and not be taken for another.
fn byte(c: &mut Cursor, what: &str) -> Result<u8, Mistake> {
    let line = c.line();
    let number = c.number()?;
    let text = || format!("there is no {what} {number}");
    u8::try_from(number).map_err(|_| Mistake { line, text: text() })
}

/// The formulas in the middle must fit into records too.
fn check_middle(middle: &Option<Middle>, line: Place) -> Result<(), Mistake> {
    match middle {
        None => Ok(()),
        Some(Middle::Interval(interval)) => check_size(interval, line),
        Some(Middle::Triple(left, right)) => {
            check_size(left, line)?;
            check_size(right, line)
        }
    }
}

/// Behind `by 16` `through {P} to {Q}`, behind `by 31` `through I`: the formulas in the middle.
fn middle(c: &mut Cursor, rule: Option<u8>) -> Result<Option<Middle>, Mistake> {
    if !c.sees_next("through") {
        return Ok(None);
    }
    match rule {
        Some(16) => {
            c.at += 1;
            let (left, right) = from_to(c)?;
            Ok(Some(Middle::Triple(left, right)))
        }
        Some(31) => {
            c.at += 1;
            Ok(Some(Middle::Interval(c.interval()?)))
        }
        _ => c.fail("only `by 16` and `by 31` have formulas in the middle".into()),
    }
}

/// `{P} to {Q}`
fn from_to(c: &mut Cursor) -> Result<(A, A), Mistake> {
    let left = braced(c)?;
    c.expect("to")?;
    Ok((left, braced(c)?))
}
