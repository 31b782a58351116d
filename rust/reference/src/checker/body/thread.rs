//! A thread record: points and instructions.

use super::{demand, formula_numbered, Context, Read, LENGTH, OPERAND, OWNER, RANGE, SORT};
use crate::checker::limits;
use crate::formula::atoms::{Atom, Atoms};
use crate::formula::{Formula, Test, Value};
use crate::image::written::{self, Half};
use crate::image::{Access, Header, Instruction, Note, Thread};
use std::rc::Rc;

/// Reads the record of the thread with this number, counted from 1.
pub fn read(body: &[u8], thread: usize, context: &Context) -> Read<Thread> {
    let code = written::instructions(body).ok_or(LENGTH)?;
    let points = body[0];
    demand((1..=limits::POINTS).contains(&points), RANGE)?;

    each(&code, |fields| fields.check_numbers(points, context))?;
    let instructions = each(&code, |fields| fields.instruction(context.formulas))?;
    each(&instructions, |instruction| check_owner(instruction, thread, context.header))?;
    each(&instructions, check_operand)?;
    Ok(instructions)
}

/// Applies a check to all instructions before the next check begins.
fn each<A, B>(items: &[A], check: impl Fn(&A) -> Read<B>) -> Read<Vec<B>> {
    items.iter().map(check).collect()
}

impl written::Instruction {
    /// Code 6: every field is in its range, every unused field is 0, and what stands behind is an assignment,
    /// behind another assignment one to another register.
    fn check_numbers(&self, points: u8, context: &Context) -> Read<()> {
        let second = self.second.is_none_or(|half| {
            let same = self.first.operation == 12 && half.a == self.first.a;
            half.operation == 0 && half.in_range(points, context) && !same
        });
        demand(self.first.in_range(points, context) && second, RANGE)
    }

    /// Code 8: the formulas have the sorts that the operation wants.
    fn instruction(&self, formulas: &[Formula]) -> Read<Instruction> {
        if self.first.operation == 6 {
            let test = own_test(formula_numbered(formulas, self.first.formula)?)?;
            return Ok(Instruction::Branch { test, target: self.first.a });
        }
        let access = self.first.access(formulas)?;
        let note = access.is_none().then_some(self.first);
        let notes = note.into_iter().chain(self.second).map(|half| half.note(formulas));
        Ok(Instruction::Act { access, notes: notes.collect::<Read<_>>()? })
    }
}

impl Half {
    fn in_range(&self, points: u8, context: &Context) -> bool {
        let counts = context.header.counts;
        let register = |field: u8| (1..=counts.registers).contains(&field);
        let word = |field: u8| (1..=counts.words).contains(&field);
        let formula = formula_numbered(context.formulas, self.formula).is_ok();
        match self.operation {
            0 | 12 => register(self.a) && self.b == 0 && formula,
            1 | 2 => register(self.a) && word(self.b) && self.formula == 0,
            3..=5 | 9..=11 => word(self.a) && self.b == 0 && formula,
            6 => self.a < points && self.b == 0 && formula,
            7 | 8 => word(self.a) && register(self.b) && formula,
            _ => false,
        }
    }

    /// The access of a first half that is no branch; none for an assignment.
    fn access(&self, formulas: &[Formula]) -> Read<Option<Access>> {
        let value = || own_value(formula_numbered(formulas, self.formula)?);
        let (operation, a, b) = (self.operation, self.a, self.b);
        Ok(Some(match operation {
            1 | 2 => Access::Load { register: a, word: b, acquiring: operation == 2 },
            3 | 9 => Access::Store { word: a, value: value()?, releasing: false },
            4 | 10 => Access::Store { word: a, value: value()?, releasing: true },
            5 | 11 => Access::Swap { word: a, value: value()? },
            7 => Access::Exchange { register: b, word: a, value: value()? },
            8 => Access::FetchAdd { register: b, word: a, value: value()? },
            _ => return Ok(None),
        }))
    }

    /// An assignment.
    fn note(&self, formulas: &[Formula]) -> Read<Note> {
        Ok(Note::new(self.a, own_value(formula_numbered(formulas, self.formula)?)?))
    }
}

/// A value that asks registers only.
fn own_value(formula: &Formula) -> Read<Rc<Value>> {
    match formula {
        Formula::Value(value) if asks_registers_only(value.as_ref()) => Ok(value.clone()),
        _ => Err(SORT),
    }
}

/// A test that asks registers only.
fn own_test(formula: &Formula) -> Read<Rc<Test>> {
    match formula {
        Formula::Test(test) if asks_registers_only(test.as_ref()) => Ok(test.clone()),
        _ => Err(SORT),
    }
}

fn asks_registers_only(tree: &impl Atoms) -> bool {
    !tree.has_atom(|atom| !matches!(atom, Atom::Register(_)))
}

/// Code 9: every register belongs to the thread.
fn check_owner(instruction: &Instruction, thread: usize, header: &Header) -> Read<()> {
    let foreign = |register: u8| usize::from(header.owners[usize::from(register) - 1]) != thread;
    let foreign_atom = |atom: Atom| matches!(atom, Atom::Register(register) if foreign(register));
    let set = instruction.registers_set().into_iter().any(foreign);
    let operand = instruction.operands().iter().any(|formula| formula.has_atom(foreign_atom));
    demand(!set && !operand, OWNER)
}

/// Code 23: the operand of exchange and fetch-add does not name the register that gets the old value.
fn check_operand(instruction: &Instruction) -> Read<()> {
    let operand = instruction.access().and_then(Access::operand);
    let named = |register: u8| operand.is_some_and(|value| value.has_register(register));
    demand(!instruction.result().is_some_and(named), OPERAND)
}
