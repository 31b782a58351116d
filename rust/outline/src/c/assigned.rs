//! Is every variable given a value before it is read? In C one that is not holds anything, in the machine 0.

use super::lower::Code;
use super::{refuse, Read};
use crate::terms::registers_of;
use reference::formula::Formula;
use reference::image::Instruction;

/// For each point which registers surely have a value: a bit for each.
type Given = Vec<u32>;

/// Refuses the first read of a variable that may have no value.
pub fn check(code: &Code, before: usize) -> Read<()> {
    let given = given(code, before);
    for (point, placed) in code.placed.iter().enumerate() {
        for register in read_by(&placed.instruction) {
            let own = usize::from(register) - 1 - before;
            if given[point] >> own & 1 == 0 {
                let name = code.locals[own].name.clone().unwrap_or_default();
                return refuse(
                    placed.at,
                    format!("`{name}` may be read here before it has a value"),
                );
            }
        }
    }
    Ok(())
}

/// The registers that an instruction's formulas name.
fn read_by(instruction: &Instruction) -> Vec<u8> {
    let named = |formula: &Formula| match formula {
        Formula::Value(value) => registers_of(value.as_ref()),
        Formula::Test(test) => registers_of(test.as_ref()),
        Formula::Interval(_) | Formula::Assertion(_) => Default::default(),
    };
    instruction.operands().iter().flat_map(named).collect()
}

/// What surely has a value on every way to a point: the greatest solution, from all registers downwards.
fn given(code: &Code, before: usize) -> Given {
    let start = code
        .locals
        .iter()
        .enumerate()
        .filter(|(_, local)| local.is_zero)
        .fold(0, |all, (n, _)| all | 1 << n);
    let mut given: Given = vec![u32::MAX; code.placed.len() + 1];
    given[0] = start;
    let mut changed = true;
    while changed {
        changed = false;
        for (point, placed) in code.placed.iter().enumerate() {
            let set = placed.instruction.registers_set();
            let after =
                set.iter().fold(given[point], |all, r| all | 1 << (usize::from(*r) - 1 - before));
            for next in nexts(&placed.instruction, point) {
                let met = given[next] & after;
                changed |= met != given[next];
                given[next] = met;
            }
        }
    }
    given
}

fn nexts(instruction: &Instruction, point: usize) -> Vec<usize> {
    match instruction {
        Instruction::Branch { target, .. } => vec![point + 1, usize::from(*target)],
        Instruction::Act { .. } => vec![point + 1],
    }
}
