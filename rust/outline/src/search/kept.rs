//! Which of the lines that were found an image has.

use crate::search::certificate::Certificate;
use reference::checker::limits::{FORMULAS, LINES};
use reference::formula::encode::Encode;
use reference::image::{Program, Statement};
use std::collections::HashSet;

/// What is asked for.
#[derive(Debug, Clone, Copy, PartialEq, Eq)]
pub enum Kept {
    /// The lines on which an obligation or a claim rests.
    Needed,
    /// Dead ones too, in the order in which they were found, as far as an image holds them.
    All,
}

impl Kept {
    /// The places of the lines, in their order; the roots are those that obligations and claims name.
    pub fn places(self, found: &Certificate, program: &Program, roots: &[usize]) -> Vec<usize> {
        let needed = found.needed(roots);
        match self {
            Kept::Needed => needed,
            Kept::All => with_dead(found, program, &needed),
        }
    }
}

/// The needed lines, and those dead ones for which there is room with what they rest on.
fn with_dead(found: &Certificate, program: &Program, needed: &[usize]) -> Vec<usize> {
    let mut formulas = formulas_of(program);
    let mut kept = vec![false; found.entries.len()];
    for &at in needed {
        formulas.extend(sides(&found.entries[at].statement));
        kept[at] = true;
    }
    let mut room = LINES.saturating_sub(needed.len());
    for (at, entry) in found.entries.iter().enumerate() {
        let new = sides(&entry.statement).into_iter().filter(|side| !formulas.contains(side));
        let new: HashSet<Vec<u8>> = new.collect();
        let rests_well = entry.premises.iter().all(|premise| kept[*premise]);
        if !kept[at] && rests_well && room > 0 && formulas.len() + new.len() <= FORMULAS {
            (kept[at], room) = (true, room - 1);
            formulas.extend(new);
        }
    }
    (0..kept.len()).filter(|at| kept[*at]).collect()
}

/// The formulas of instructions and outline.
fn formulas_of(program: &Program) -> HashSet<Vec<u8>> {
    let operands = program.threads.iter().flatten().flat_map(|one| one.operands());
    let outline = program.outline.iter().flatten().map(|assertion| assertion.encode());
    operands.map(|formula| formula.encode()).chain(outline).collect()
}

fn sides(statement: &Statement) -> [Vec<u8>; 2] {
    let (left, right) = statement.sides();
    [left.encode(), right.encode()]
}
