//! Rules 1 to 16 and 47 to 50: what an instruction does.

use super::{loads, pairs, stores, structure, swaps, Fit};
use crate::formula::Assertion;
use crate::image::{Instruction, Program, Statement};
use std::rc::Rc;

/// A triple: the instruction at a thread's point, and the assertions around it.
pub struct Triple<'a> {
    pub thread: u8,
    pub point: u8,
    pub action: &'a Instruction,
    pub left: &'a Rc<Assertion>,
    pub right: &'a Rc<Assertion>,
}

/// Left and right of a statement about assertions.
pub type Sides<'a> = (&'a Rc<Assertion>, &'a Rc<Assertion>);

impl<'a> Triple<'a> {
    /// The triple that a statement is; none if it is no triple.
    pub fn of(program: &'a Program, statement: &'a Statement) -> Option<Triple<'a>> {
        let Statement::Triple { thread, point, left, right } = statement else { return None };
        let action = program.instruction(*thread, *point).expect("a triple has an instruction");
        Some(Triple { thread: *thread, point: *point, action, left, right })
    }
}

impl Triple<'_> {
    /// The sides of a premise that is a triple for the same instruction.
    pub fn premise<'a>(&self, statement: &'a Statement) -> Option<Sides<'a>> {
        match statement {
            Statement::Triple { thread, point, left, right }
                if (*thread, *point) == (self.thread, self.point) =>
            {
                Some((left, right))
            }
            _ => None,
        }
    }

    /// Whether the triple is from `left` to `right`.
    pub fn is(&self, left: Assertion, right: Assertion) -> Fit {
        Some(**self.left == left && **self.right == right)
    }
}

/// Whether a triple follows by the rule from these premises.
pub fn fits(rule: u8, c: &Triple, premises: &[&Statement]) -> Fit {
    match (rule, premises) {
        (1, []) => structure::rule_1(c),
        (2, []) => structure::rule_2(c),
        (3, []) => loads::rule_3(c),
        (4, [p]) => loads::rule_4(c, c.premise(p)?),
        (5, [p]) => loads::rule_5(c, c.premise(p)?),
        (6, []) => stores::rule_6(c),
        (7, []) => stores::rule_7(c),
        (8, []) => stores::rule_8(c),
        (9, []) => stores::rule_9(c),
        (10, [p]) => stores::rule_10(c, c.premise(p)?),
        (11, []) => swaps::rule_11(c),
        (12, []) => swaps::rule_12(c),
        (13, []) => swaps::rule_13(c),
        (14, [p, q]) => structure::rule_14(c, c.premise(p)?, c.premise(q)?),
        (15, [p, q]) => structure::rule_15(c, c.premise(p)?, c.premise(q)?),
        (16, [before, p, after]) => structure::rule_16(c, before, c.premise(p)?, after),
        (47, []) => loads::rule_47(c),
        (48, []) => swaps::rule_48(c),
        (49, []) => swaps::rule_49(c),
        (50, [p]) => pairs::rule_50(c, c.premise(p)?),
        _ => None,
    }
}
