//! Why a step of a trace is refused, in the source's names.

use crate::text::counted;
use crate::text::print::Names;
use reference::image::{Access, Program};
use reference::machine::State;

/// Why the step in front of these bytes is refused in a state, with so many entries lent; the start needs entries too.
pub fn refusal(
    program: &Program,
    names: &Names,
    state: &State,
    rest: &[u8],
    entries: usize,
) -> String {
    let writes: usize = state.rows.iter().map(Vec::len).sum();
    if entries < writes {
        return format!("{} at the start, and room for {entries}", counted(writes, "write"));
    }
    let &[thread, position, ..] = rest else {
        return "half a step: a byte is left over".into();
    };
    if !program.thread_numbers().contains(&thread) {
        return format!("there is no thread {thread}");
    }
    let (name, point) = (names.thread(thread), state.points[usize::from(thread) - 1]);
    let Some(instruction) = program.instruction(thread, point) else {
        return format!("{name} is at its last point");
    };
    let step = format!("{name}: {}", names.instruction(thread, instruction));
    let why = match instruction.access() {
        None => format!("it picks no write, and its position is {position}, not 0"),
        Some(access) => not_picked(names, state, (thread, usize::from(position)), access)
            .unwrap_or_else(|| {
                format!("there is room for {} and no more", counted(entries, "write"))
            }),
    };
    format!("{step}: {why}")
}

/// Why the write at a position cannot be picked by a thread; none if it can.
fn not_picked(
    names: &Names,
    state: &State,
    (thread, position): (u8, usize),
    access: &Access,
) -> Option<String> {
    let word = access.word();
    let (row, own) = (state.row(word), usize::from(state.view(thread).at(word)));
    let (name, there) = (names.word(word), position + 1);
    if position >= row.len() {
        return Some(format!("{name} has {}, and no write {there}", counted(row.len(), "write")));
    }
    if position < own {
        return Some(format!("write {there} of {name} is before its own, write {}", own + 1));
    }
    let loads = matches!(access, Access::Load { .. });
    (!loads && row[position].covered).then(|| format!("write {there} of {name} is covered"))
}
