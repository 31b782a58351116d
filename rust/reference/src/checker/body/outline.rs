//! The outline: a formula number per point, threads in order.

use super::{demand, formula_numbered, Read, LENGTH, SORT};
use crate::formula::atoms::{Atom, Atoms};
use crate::formula::{Assertion, Formula};
use crate::image::{written, Thread};
use std::rc::Rc;

/// Reads the outline as one list of assertions per thread.
pub fn read(
    body: &[u8],
    threads: &[Thread],
    formulas: &[Formula],
) -> Read<Vec<Vec<Rc<Assertion>>>> {
    let points: usize = threads.iter().map(|thread| thread.len() + 1).sum();
    let numbers = written::numbers(body).ok_or(LENGTH)?;
    demand(numbers.len() == points, LENGTH)?;
    let named = numbers
        .into_iter()
        .map(|number| formula_numbered(formulas, number))
        .collect::<Read<Vec<&Formula>>>()?;
    let assertions = named.into_iter().map(startless_assertion).collect::<Read<Vec<_>>>()?;

    let mut rest = assertions.into_iter();
    Ok(threads.iter().map(|thread| rest.by_ref().take(thread.len() + 1).collect()).collect())
}

/// An assertion in which `start` does not occur.
pub fn startless_assertion(formula: &Formula) -> Read<Rc<Assertion>> {
    match formula {
        Formula::Assertion(tree) if !tree.as_ref().has_atom(|atom| atom == Atom::Start) => {
            Ok(tree.clone())
        }
        _ => Err(SORT),
    }
}
