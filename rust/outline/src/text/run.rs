//! Runs of the machine in the source's names.

use crate::text::print::Names;
use reference::explore::Run;
use reference::image::{Access, Instruction, Note, Program};
use reference::machine::{take, State, Step, Write};

/// A run as lines: each step with what it reads or writes, the registers reached, and the values in each row.
pub fn lines(program: &Program, names: &Names, run: &Run) -> Vec<String> {
    let (mut lines, end) = steps(program, names, run);
    let words = 1..=end.rows.len() as u8;
    lines.extend(words.map(|x| format!("     {}", written(names, &end, x))));
    lines
}

/// The values in a word's row.
pub fn written(names: &Names, state: &State, x: u8) -> String {
    let values: Vec<String> = state.row(x).iter().map(|write| write.value.to_string()).collect();
    format!("{} was written {}", names.word(x), values.join(", "))
}

/// Each step of a run with what it reads or writes, and the registers reached; and the state at its end.
pub fn steps(program: &Program, names: &Names, run: &Run) -> (Vec<String>, State) {
    let mut state = run.start.clone();
    let mut lines = Vec::new();
    if program.header.marks.contains(&0) {
        lines.push(format!("     start: {}", registers(names, &state)));
    }
    for (number, &step) in (1..).zip(&run.steps) {
        let after = take(&program.threads, &state, step).expect("a step of the run");
        lines.push(format!("{number:>3}. {}", one_step(program, names, &state, step, &after)));
        state = after;
    }
    if !names.registers.is_empty() {
        lines.push(format!("     then {}", registers(names, &state)));
    }
    (lines, state)
}

/// The writes of a table, word by word in row order, each with its place, its marks and its stored view.
pub fn table(names: &Names, state: &State, writes: &[Write]) -> Vec<String> {
    let places = (1..).zip(&state.rows).flat_map(|(x, row)| (1..=row.len()).map(move |n| (x, n)));
    let view = |write: &Write| {
        let places =
            (1..).zip(&names.words).map(|(x, name)| format!("{name} {}", write.stored.at(x) + 1));
        places.collect::<Vec<String>>().join(", ")
    };
    let line = |((x, place), write): ((u8, usize), &Write)| {
        let mut text = format!("     {} write {place}: {}", names.word(x), write.value);
        text += if write.releasing { ", releasing" } else { "" };
        text += if write.covered { ", covered" } else { "" };
        format!("{text}, stored view: {}", view(write))
    };
    places.zip(writes).map(line).collect()
}

/// The registers with their values.
pub fn registers(names: &Names, state: &State) -> String {
    let values = names.registers.iter().zip(&state.registers);
    values.map(|(name, value)| format!("{name} = {value}")).collect::<Vec<String>>().join(", ")
}

fn one_step(program: &Program, names: &Names, state: &State, step: Step, after: &State) -> String {
    let point = state.points[usize::from(step.thread) - 1];
    let instruction = program.instruction(step.thread, point).expect("an instruction");
    let who = names.thread(step.thread);
    let done = effect(names, instruction, state, step, after);
    format!("{who}: {}   {done}", names.instruction(step.thread, instruction))
}

/// What a step does: what it reads and writes, what it gives, where it goes.
pub fn effect(
    names: &Names,
    instruction: &Instruction,
    state: &State,
    step: Step,
    after: &State,
) -> String {
    match instruction {
        Instruction::Branch { .. } => {
            let point = after.points[usize::from(step.thread) - 1];
            format!("goes to {}", names.point(step.thread, point))
        }
        Instruction::Act { access, notes } => {
            let moved = access.iter().map(|access| accessed(access, state, step, after));
            let value = |note: &Note| after.registers[usize::from(note.register) - 1].to_string();
            let given: Vec<String> = notes.iter().map(value).collect();
            let given = (!notes.is_empty()).then(|| format!("gives {}", given.join(", ")));
            moved.chain(given).collect::<Vec<String>>().join(", ")
        }
    }
}

/// What an access reads or writes. Writes in a row count from 1 here.
fn accessed(access: &Access, state: &State, step: Step, after: &State) -> String {
    let (word, place) = (access.word(), step.position + 1);
    let old = state.row(word)[step.position].value;
    let new = || after.row(word)[step.position + 1].value;
    match access {
        Access::Load { .. } => format!("reads {old} from write {place}"),
        Access::Store { .. } => format!("writes {} behind write {place}", new()),
        Access::Swap { .. } | Access::Exchange { .. } | Access::FetchAdd { .. } => {
            format!("reads {old}, writes {} behind write {place}", new())
        }
    }
}
