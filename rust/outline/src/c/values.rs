//! Do the values that words and registers can hold stay in a range, so that no sum wraps round?
//!
//! Known in one of two ways: by the values that each word and register can have at all, whatever the order of steps; or by
//! all states of the machine, if a search sees them all. A run in which no sum has wrapped round is the same in C.

use super::program::Whole;
use super::types::MOST;
use super::{refuse, At, Read};
use crate::terms::V;
use reference::explore::{find, Bounds, Sought};
use reference::formula::{Formula, Test, Value};
use reference::image::{Access, Instruction, Program};
use reference::machine::State;
use std::cell::Cell;

/// The least range that holds all values, and how that is known.
#[derive(Debug, Clone, PartialEq, Eq)]
pub struct Fits {
    pub range: u8,
    pub by: By,
}

#[derive(Debug, Clone, PartialEq, Eq)]
pub enum By {
    /// By the values that each word and register can have, whatever the order.
    Values,
    /// By all states, so many.
    States(usize),
}

impl Fits {
    pub fn told(&self) -> String {
        let most = self.range - 1;
        match self.by {
            By::Values => format!(
                "values stay within 0 to {most}: by what each word and variable can be given"
            ),
            By::States(states) => format!("values stay within 0 to {most}: in all {states} states"),
        }
    }
}

/// Sets of values, a bit for each; the bit behind the greatest stands for all that are too great.
type Values = u32;

const TOO_GREAT: Values = 1 << (MOST + 1);

/// The least range that holds this value too, or where a value gets too great or cannot be known to stay.
pub fn fitting(whole: &Whole, bounds: Bounds, at_least: u8) -> Read<Fits> {
    let program = whole.program(MOST + 1);
    let constants = greatest_constant(&program).max(at_least);
    if let Some(most) = by_values(whole, &program) {
        return Ok(Fits { range: most.max(constants).max(1) + 1, by: By::Values });
    }
    let most = Cell::new(constants);
    let wrong = Cell::new(None);
    let sought = find(&program, bounds, &|state| {
        let found = too_great(whole, &program, state, &most);
        wrong.set(found);
        found.is_some()
    });
    by_states(whole, &sought, wrong.get(), most.get())
}

fn by_states(whole: &Whole, sought: &Sought, wrong: Option<At>, most: u8) -> Read<Fits> {
    let first = whole.functions[0].at;
    match (&sought.runs[0], sought.all) {
        (Some(run), _) => refuse(
            wrong.unwrap_or(first),
            format!("a run of {} steps gives a value here that its type or the range, 0 to {MOST}, does not hold", run.steps.len()),
        ),
        (None, true) => Ok(Fits { range: most.max(1) + 1, by: By::States(sought.states) }),
        (None, false) => refuse(
            first,
            format!(
                "that all values stay within 0 to {MOST} is not known: {} states were looked at, not all there are; more bounds may help",
                sought.states
            ),
        ),
    }
}

/// The greatest constant and start value of a program.
fn greatest_constant(program: &Program) -> u8 {
    let values = program.threads.iter().flatten().flat_map(values_of);
    let constants = values.map(|value| greatest_in(&value));
    constants.chain(program.header.start.iter().copied()).max().unwrap_or(0)
}

fn greatest_in(value: &Value) -> u8 {
    match value {
        Value::Constant(number) => *number,
        Value::Register(_) | Value::Word(_) => 0,
        Value::Sum(a, b) => greatest_in(a).max(greatest_in(b)),
    }
}

/// The values that an instruction works out, those of a branch's test among them.
fn values_of(instruction: &Instruction) -> Vec<V> {
    let mut all = Vec::new();
    for formula in instruction.operands() {
        match formula {
            Formula::Value(value) => all.push(value),
            Formula::Test(test) => compared(&test, &mut all),
            Formula::Interval(_) | Formula::Assertion(_) => {}
        }
    }
    all
}

fn compared(test: &Test, all: &mut Vec<V>) {
    match test {
        Test::Equal(a, b) | Test::Less(a, b) => all.extend([a.clone(), b.clone()]),
        Test::Not(a) => compared(a, all),
        Test::And(a, b) | Test::Or(a, b) => {
            compared(a, all);
            compared(b, all);
        }
        Test::False | Test::Unsync(_) | Test::Covered(_) => {}
    }
}

/// The values of words and registers, whatever the order of steps.
struct Reach {
    words: Vec<Values>,
    registers: Vec<Values>,
}

/// The greatest value that anything can be given, unless it may be too great.
fn by_values(whole: &Whole, program: &Program) -> Option<u8> {
    let header = &program.header;
    let mut reach = Reach {
        words: header.start.iter().map(|start| 1 << start).collect(),
        registers: vec![1; header.owners.len()],
    };
    loop {
        let before = (reach.words.clone(), reach.registers.clone());
        program.threads.iter().flatten().for_each(|instruction| reach.give(instruction));
        if before == (reach.words.clone(), reach.registers.clone()) {
            break;
        }
    }
    let compared = program.threads.iter().flatten().flat_map(values_of);
    let all = compared.fold(0, |all, value| all | reach.of(&value));
    let locals = whole.functions.iter().flat_map(|function| &function.code.locals);
    let held = locals.map(|local| local.most).zip(&reach.registers);
    let kept = whole.words.iter().map(|word| word.most).zip(&reach.words);
    let fits = |(most, values): (u8, &Values)| values >> (u32::from(most) + 1) == 0;
    let is_small = all & TOO_GREAT == 0 && held.chain(kept).all(fits);
    let given = reach.words.iter().chain(&reach.registers).fold(all, |all, values| all | values);
    is_small.then(|| greatest_bit(given))
}

fn greatest_bit(values: Values) -> u8 {
    values.checked_ilog2().unwrap_or(0) as u8
}

impl Reach {
    fn of(&self, value: &Value) -> Values {
        match value {
            Value::Constant(number) => 1 << number,
            Value::Register(number) => self.registers[usize::from(*number) - 1],
            Value::Word(number) => self.words[usize::from(*number) - 1],
            Value::Sum(a, b) => sums(self.of(a), self.of(b)),
        }
    }

    /// What an instruction may put into words and registers.
    fn give(&mut self, instruction: &Instruction) {
        for note in instruction.notes() {
            self.registers[usize::from(note.register) - 1] |= self.of(&note.value);
        }
        let Some(access) = instruction.access() else { return };
        let word = usize::from(access.word()) - 1;
        let old = self.words[word];
        if let Some(register) = access.result() {
            self.registers[usize::from(register) - 1] |= old;
        }
        if let Some(value) = access.operand() {
            let value = self.of(value);
            let is_sum = matches!(access, Access::FetchAdd { .. });
            self.words[word] |= if is_sum { sums(old, value) } else { value };
        }
    }
}

/// All sums of two values; what is too great is one value.
fn sums(a: Values, b: Values) -> Values {
    let each = (0..=u32::from(MOST) + 1).filter(|n| a >> n & 1 == 1).map(|n| u64::from(b) << n);
    let all = each.fold(0, |all, shifted| all | shifted);
    let small = all & u64::from(TOO_GREAT - 1);
    let has_great = all >> (MOST + 1) != 0;
    small as Values | if has_great { TOO_GREAT } else { 0 }
}

/// Where a step from a state works out a value that is too great, or where one that its type does not hold was given. The
/// greatest value is noted.
fn too_great(whole: &Whole, program: &Program, state: &State, most: &Cell<u8>) -> Option<At> {
    let held = whole.functions.iter().flat_map(|function| &function.code.locals);
    let over = |(value, limit): (u8, u8)| {
        most.set(most.get().max(value));
        value > limit
    };
    let local = held.zip(&state.registers).find(|(local, value)| over((**value, local.most)));
    let word = whole.words.iter().zip(&state.rows);
    let mut words = word.flat_map(|(word, row)| row.iter().map(move |write| (word, write.value)));
    let kept = words.find(|(word, value)| over((*value, word.most)));
    let at = local.map(|(local, _)| local.at).or(kept.map(|(word, _)| word.at));
    at.or_else(|| {
        let worked = program.thread_numbers().zip(&whole.functions).map(|(thread, function)| {
            let value = greatest_worked(program, state, thread);
            most.set(most.get().max(value.min(u32::from(MOST)) as u8));
            (value, function, usize::from(state.points[usize::from(thread) - 1]))
        });
        let mut great = worked.filter(|(value, ..)| *value > u32::from(MOST));
        great.next().map(|(_, function, point)| function.code.placed[point].at)
    })
}

/// The greatest value that the next step of a thread may work out.
fn greatest_worked(program: &Program, state: &State, thread: u8) -> u32 {
    let point = state.points[usize::from(thread) - 1];
    let Some(instruction) = program.instruction(thread, point) else { return 0 };
    let sum = match instruction.access() {
        Some(Access::FetchAdd { word, value, .. }) => {
            let from = usize::from(state.view(thread).at(*word));
            let free = state.row(*word)[from..].iter().filter(|write| !write.covered);
            let old = free.map(|write| u32::from(write.value)).max();
            old.unwrap_or(0) + exact(value, state)
        }
        _ => 0,
    };
    let worked = values_of(instruction).into_iter().map(|value| exact(&value, state));
    worked.chain([sum]).max().unwrap_or(0)
}

/// A value without wrapping round.
fn exact(value: &Value, state: &State) -> u32 {
    match value {
        Value::Constant(number) => u32::from(*number),
        Value::Register(number) => u32::from(state.registers[usize::from(*number) - 1]),
        Value::Word(_) => 0,
        Value::Sum(a, b) => exact(a, state) + exact(b, state),
    }
}

#[cfg(test)]
mod tests {
    use super::*;
    use crate::litmus::read::read;

    const BOUNDS: Bounds = Bounds { steps: 60, writes: 6, starts: 1, states: 100_000 };

    fn fits(body: &str) -> Result<Fits, String> {
        let text = format!(
            "C t\n{{ [x]=0; }}\nP0 (atomic_int* x) {{ {body} }}\n\
             P1 (atomic_int* x) {{ int s = atomic_load_explicit(x, memory_order_relaxed); }}\nexists (true)\n"
        );
        read(&text, BOUNDS).map(|test| test.fits).map_err(|refusal| refusal.text)
    }

    #[test]
    fn the_range_is_the_least_that_holds_all_values() {
        let by_values = |range| Ok(Fits { range, by: By::Values });
        assert_eq!(fits("atomic_store_explicit(x, 3, memory_order_relaxed);"), by_values(4));
        assert_eq!(fits("int r = 1; r = r + 1;").map(|fits| fits.range), Ok(3));
        // The sum of a test counts too: with a range of 5 it would be 0.
        let tested =
            "int r = 0; if (atomic_load_explicit(x, memory_order_relaxed) + 4 == 5) r = 1;";
        assert_eq!(
            fits(&format!("atomic_store_explicit(x, 1, memory_order_relaxed); {tested}")),
            by_values(6)
        );
        let counted = "int i = 0; while (i < 3) { i++; } if (i + 4 == 5) i = 0;";
        let found = fits(counted).expect("all states are seen");
        assert!(found.range == 8 && matches!(found.by, By::States(_)), "{found:?}");
    }

    #[test]
    fn what_gets_too_great_or_is_not_known_is_refused() {
        let great = fits("int i = 1; while (i < 15) { i = i + i; }").expect_err("16 is reached");
        assert!(great.contains("does not hold"), "{great}");
        let bool_2 = fits("bool b = 0; b = 2;").expect_err("a bool holds 1 at most");
        assert!(bool_2.contains("does not hold"), "{bool_2}");
        let spin =
            "for (;;) { atomic_store_explicit(x, 1, memory_order_relaxed); int i = 1; i++; }";
        let not_known = fits(spin).expect_err("rows grow without end");
        assert!(not_known.contains("is not known"), "{not_known}");
    }

    #[test]
    fn sums_of_sets_are_sums_of_their_values() {
        assert_eq!(sums(0b11, 0b100), 0b1100);
        assert_eq!(sums(1 << 15, 0b10), TOO_GREAT);
        assert_eq!(sums(TOO_GREAT, 1), TOO_GREAT);
        assert_eq!(sums(0, 0b10), 0);
    }
}
